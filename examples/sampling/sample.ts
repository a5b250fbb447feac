! Reads the sensor once a period, and sends each three readings.
buffer readings;
readings[] = light();
if size(readings) = 3 then
  send(readings);
  clear(readings);
end if
