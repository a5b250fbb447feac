shared limit, count;
if limit > 0 then limit = limit - 1; count = count + 1; end if
