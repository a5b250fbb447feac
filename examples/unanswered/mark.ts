shared hops;
hops = hops + 1;
