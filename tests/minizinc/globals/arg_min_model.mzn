% Where the least is.
include "globals.mzn";
int: n;
array[1..n] of var 1..n: x;
var 1..n: place;
constraint place = arg_min(x);
solve satisfy;
