! Keeps the greatest value that was ever heard.
private i; shared top;
for i = 0 to size(msg) - 1
  if msg[i] > top then top = msg[i]; end if
next i
