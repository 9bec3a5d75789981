% Who has which desks, and who sits at each.
include "globals.mzn";
int: n;
array[1..2] of var set of 1..n: s;
array[1..n] of var set of 1..2: t;
constraint inverse_set(s, t);
solve satisfy;
