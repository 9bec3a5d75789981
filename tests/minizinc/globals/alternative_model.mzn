% A task is done by one of two others.
include "globals.mzn";
int: n;
var 0..n: start;
array[1..2] of var opt 0..n: part;
constraint alternative(start, 2, part, [2, 2]);
solve satisfy;
