% Who has which desk, and which desk is whose.
include "globals.mzn";
int: n;
array[1..n] of var 1..n: x;
array[1..n] of var 1..n: y;
constraint inverse(x, y);
solve satisfy;
