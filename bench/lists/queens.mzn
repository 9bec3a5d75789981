% n queens, by three lists of numbers that differ: all solutions are asked for.
include "alldifferent.mzn";
int: n; array[1..n] of var 1..n: q;
constraint alldifferent(q) /\ alldifferent([q[i]+i|i in 1..n]) /\ alldifferent([q[i]-i|i in 1..n]);
solve :: int_search(q, first_fail, indomain_min, complete) satisfy;
