! every kind of word, once at least
shared a, total; private i;
buffer p;
p[] = light();
for i = 0 to size(p) - 1 step 2
  if p[i] >= 40000 and not a <> 65535 then
    total = total + p[i] % 3; ! a remainder
  else
    send(p); clear(p);
  end if
next i
while msg[0] < 70000 a = 12x; end while
! procedures, and names that only look like them
proc add(n, m)
  total = total + n; proc = do;
end proc
do add(1, do);
