% An odd number of switches is on.
include "globals.mzn";
int: n;
array[1..n] of var bool: on;
constraint xorall(on);
solve satisfy;
