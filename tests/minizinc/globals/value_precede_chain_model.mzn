% No value before the one below it.
include "globals.mzn";
int: n;
array[1..n] of var 1..n: x;
constraint value_precede_chain([ v | v in 1..n ], x);
solve satisfy;
