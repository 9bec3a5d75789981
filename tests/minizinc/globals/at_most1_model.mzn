% Two sets of two share at most one element.
include "globals.mzn";
int: n;
array[1..2] of var set of 1..n: s;
constraint forall(i in 1..2)(card(s[i]) = 2);
constraint at_most1(s);
solve satisfy;
