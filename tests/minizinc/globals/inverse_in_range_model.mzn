% The same where a desk may be nobody's.
include "globals.mzn";
int: n;
array[1..n] of var 0..n: x;
array[1..n] of var 0..n: y;
constraint inverse_in_range(x, y);
solve satisfy;
