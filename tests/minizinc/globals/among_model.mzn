% How many places have 1 or 2.
include "globals.mzn";
int: n;
array[1..n] of var 1..n: x;
var 0..n: count_of;
constraint among(count_of, x, {1, 2});
solve satisfy;
