! The product of two numbers, in the shared variable a.
shared a;
a = 7 * 6;
