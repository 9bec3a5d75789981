% A list, and the same in order.
include "globals.mzn";
int: n;
array[1..n] of var 1..n: x;
array[1..n] of var 1..n: y;
constraint sort(x, y);
solve satisfy;
