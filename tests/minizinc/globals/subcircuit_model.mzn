% A round trip of some places.
include "globals.mzn";
int: n;
array[1..n] of var 1..n: x;
constraint subcircuit(x);
solve satisfy;
