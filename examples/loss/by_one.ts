! counts in steps of one
shared total;
total = total + 1;
