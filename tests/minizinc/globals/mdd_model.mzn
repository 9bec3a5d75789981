% A decision diagram of three levels.
include "globals.mzn";
int: n;
array[1..3] of var 1..n: x;
constraint mdd(x, 5, [1, 2, 2, 3, 3], 7, [1, 1, 2, 2, 3, 4, 5], [{1}, 2..n, {1}, {2}, {1, 3}, {3}, 1..n], [2, 3, 4, 5, 4, 0, 0]);
solve satisfy;
