! shows the total before and after the event's value
shared total; private before;
before = total;
total = total + msg[0];
show(before, total);
