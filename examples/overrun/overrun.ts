! Never ends by itself: each going back costs one turn, and an invocation has 10000.
shared a;
while 1
  a = a + 1;
end while
