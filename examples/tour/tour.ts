! A tour of TinyScript, on the built-in machine.
shared a, b, c, d;            ! variables of the machine, which stay
private i;                    ! one of this run alone, 0 at first

a = 7 * 6 - 9 / 2;            ! 38: numbers are whole, and 9 / 2 is 4
if a > 30 and not a = 41 then
  b = 1;
else
  b = -1;
end if
for i = 1 to 10 step 3        ! 1, 4, 7, 10
  c = c + i;
next i
while d < 5                   ! 2, 4, 6
  d = d + 2;
end while
