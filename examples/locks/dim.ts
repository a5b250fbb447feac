! dims the lamp by half of the level
shared level;
level = level / 2;
set(level);
