% Where each is, and who is there.
include "globals.mzn";
int: n;
array[1..n] of var 1..n: x;
array[1..n] of var set of 1..n: s;
constraint int_set_channel(x, s);
solve satisfy;
