% A round trip.
include "globals.mzn";
int: n;
array[1..n] of var 1..n: x;
constraint circuit(x);
solve satisfy;
