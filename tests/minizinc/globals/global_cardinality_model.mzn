% How often three values are there.
include "globals.mzn";
int: n;
array[1..n] of var 1..n: x;
array[1..3] of var 0..n: count_of;
constraint global_cardinality(x, [1, 2, 3], count_of);
solve satisfy;
