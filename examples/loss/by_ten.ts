! counts in steps of ten
shared total;
total = total + 10;
