! reads the sensor into the shared level
shared level, steps;
level = light();
steps = steps + 1;
