% Tasks on one machine.
include "globals.mzn";
int: n;
array[1..n] of var 0..2 * n: start;
constraint disjunctive(start, [ 1 + i mod 3 | i in 1..n ]);
solve satisfy;
