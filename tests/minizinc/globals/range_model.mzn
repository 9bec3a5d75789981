% The values at some places.
include "globals.mzn";
int: n;
array[1..3] of var 1..n: x;
var set of 1..3: s;
var set of 1..n: t;
constraint range(x, s, t);
solve satisfy;
