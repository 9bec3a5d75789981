% How often each value is there.
include "globals.mzn";
int: n;
array[1..n] of var 1..n: x;
array[1..n] of var 0..n: count_of;
constraint global_cardinality_closed(x, [ v | v in 1..n ], count_of);
solve satisfy;
