! the limit comes with the event
shared limit;
limit = msg[0];
