! reads the level
shared level;
level = light();
