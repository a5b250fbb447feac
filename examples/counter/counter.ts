! Counts to ten, and adds up what it counts.
private i;
shared a, b;
for i = 1 to 10
  a = a + 1;
  b = b + i;
next i
