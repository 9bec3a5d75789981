% The greatest.
include "globals.mzn";
int: n;
array[1..n] of var 1..n: x;
var 1..n: most;
constraint maximum(most, x);
solve satisfy;
