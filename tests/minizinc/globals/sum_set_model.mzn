% What the elements of a set weigh together.
include "globals.mzn";
int: n;
var set of 1..n: s;
var 0..2 * n: weight;
constraint sum_set([ v | v in 1..n ], [ 1 + v mod 3 | v in 1..n ], s, weight);
solve satisfy;
