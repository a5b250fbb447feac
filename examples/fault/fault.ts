! Divides by a shared variable that nobody set.
shared a, b, c;
a = 3;
c = a / b;
a = 4;
