% Two groups that share nobody.
include "globals.mzn";
int: n;
var set of 1..n: s;
var set of 1..n: t;
constraint disjoint(s, t);
solve satisfy;
