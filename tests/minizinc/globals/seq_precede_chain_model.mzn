% No value before all below it.
include "globals.mzn";
int: n;
array[1..n] of var 1..n: x;
constraint seq_precede_chain(x);
solve satisfy;
