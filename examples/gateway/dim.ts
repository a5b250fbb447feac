! dims the lamp by half of the level
shared level;
set(level / 2);
