% How many different values there are.
include "globals.mzn";
int: n;
array[1..n] of var 1..n: x;
var 1..n: values;
constraint nvalue(values, x);
solve satisfy;
