% Three groups that share nobody.
include "globals.mzn";
int: n;
array[1..3] of var set of 1..n: s;
constraint all_disjoint(s);
solve satisfy;
