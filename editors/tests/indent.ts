! statements over several lines, and blocks of every kind
shared a, b,
  c;
private i;
buffer p;
proc add(n,
  m)
  a = a + n;
end proc
if a > 1 and
  b < 2
  or c = 3
  then
  a = 1;
  if b then c = 1; else c = 2; end if
  for i = 1 to 10
    while a
      a = a
        - 1; ! one less
      ! a comment inside

      p[] = a;
    end while
  next i
else
  do add(1, 2);
end if
if a then if b then
    c = 1;
end if end if
while a > 3 b = 1;
  c = 2;
end while
x = size(p)
  * 3;
end_ = 1;
nexts = 2;
