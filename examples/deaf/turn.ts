shared on;
on = 1;
