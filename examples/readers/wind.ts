! counts in low what is not over the limit
shared limit, low;
if speed() <= limit then low = low + 1; end if
