shared count;
count = count + 1;
set(count);
