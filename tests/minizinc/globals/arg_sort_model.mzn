% A list, and its places in order.
include "globals.mzn";
int: n;
array[1..n] of var 1..n: x;
array[1..n] of var 1..n: y;
constraint arg_sort(x, y);
solve satisfy;
