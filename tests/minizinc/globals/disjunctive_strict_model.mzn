% Tasks on one machine, of which those that take no time aren't inside another.
include "globals.mzn";
int: n;
array[1..n] of var 0..2 * n - 3: start;
constraint disjunctive_strict(start, [ i mod 3 | i in 1..n ]);
solve satisfy;
