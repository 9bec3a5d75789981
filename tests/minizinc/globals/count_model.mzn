% How many places have 1.
include "globals.mzn";
int: n;
array[1..n] of var 1..n: x;
var 0..n: count_of;
constraint count(x, 1, count_of);
solve satisfy;
