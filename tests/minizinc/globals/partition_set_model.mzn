% Three groups that share nobody and leave nobody out.
include "globals.mzn";
int: n;
array[1..3] of var set of 1..n: s;
constraint partition_set(s, 1..n);
solve satisfy;
