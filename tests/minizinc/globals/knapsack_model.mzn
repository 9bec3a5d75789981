% What to carry: a weight and a profit.
include "globals.mzn";
int: n;
array[1..n] of var 0..1: x;
var 0..2 * n: weight;
var 0..3 * n: profit;
constraint knapsack([ 1 + i mod 3 | i in 1..n ], [ 1 + i mod 2 | i in 1..n ], x, weight, profit);
solve satisfy;
