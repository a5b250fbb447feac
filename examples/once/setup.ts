! the values that work begins with
shared limit, count;
limit = 3; count = 10;
