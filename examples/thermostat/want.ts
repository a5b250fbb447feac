! The wanted temperature comes as the first value of the message.
shared wanted;
wanted = msg[0];
