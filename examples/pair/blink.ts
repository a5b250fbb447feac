! The lamp is switched to the other state.
shared level;
level = 1 - level;
set(level);
