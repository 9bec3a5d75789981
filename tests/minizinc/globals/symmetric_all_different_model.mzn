% Who is whose partner.
include "globals.mzn";
int: n;
array[1..n] of var 1..n: x;
constraint symmetric_all_different(x);
solve satisfy;
