! appends a reading; the fourth one sends them all
buffer readings;
readings[] = light();
if size(readings) = 4 then
  send(readings);
  clear(readings);
end if
