! reads the sensor twice
shared level, steps;
steps = steps + 2;
level = light() + light();
