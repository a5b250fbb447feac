! reads the sensor
shared level, steps;
steps = steps + 1;
level = light();
