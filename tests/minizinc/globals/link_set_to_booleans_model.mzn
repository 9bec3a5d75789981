% A set, and whether each is in it.
include "globals.mzn";
int: n;
var set of 1..n: s;
array[1..n] of var bool: b;
constraint link_set_to_booleans(s, b);
solve satisfy;
