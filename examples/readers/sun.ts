! counts in high what is over the limit
shared limit, high;
if light() > limit then high = high + 1; end if
