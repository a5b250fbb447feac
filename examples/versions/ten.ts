shared total;
total = total + 10;
