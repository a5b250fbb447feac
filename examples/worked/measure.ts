! reads the sensor, and keeps the lowest level
shared level, low;
level = light();
if level < low then low = level; end if
