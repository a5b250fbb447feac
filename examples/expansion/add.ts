shared a;
proc add(n)
  a = a + n;
end proc
do add(2);
do add(a);
