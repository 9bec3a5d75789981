% A value stands somewhere.
include "globals.mzn";
int: n;
array[1..n] of var 1..n: x;
var 1..n: value;
constraint member(x, value);
solve satisfy;
