shared total;
total = total + 1;
