% The least.
include "globals.mzn";
int: n;
array[1..n] of var 1..n: x;
var 1..n: least;
constraint minimum(least, x);
solve satisfy;
