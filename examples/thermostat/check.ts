! Switches the heater on if it is too cold, and off if it isn't.
shared wanted, now;
now = temperature();
if now < wanted then heat(1); else heat(0); end if
