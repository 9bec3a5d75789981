% How many places have a value that isn't fixed.
include "globals.mzn";
int: n;
array[1..n] of var 1..n: x;
var 1..n: value;
constraint count(x, value) = 2;
solve satisfy;
