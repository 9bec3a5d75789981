% Rows that three places may have.
include "globals.mzn";
int: n;
array[1..3] of var 1..n: x;
constraint table(x, array2d(1..n * n, 1..3, [ [a, b, (a * b) mod n + 1][k] | a, b in 1..n, k in 1..3 ]));
solve satisfy;
