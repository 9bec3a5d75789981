% A pattern as an expression.
include "globals.mzn";
int: n;
array[1..n] of var 1..n: x;
constraint regular(x, "1* (2 | 3) 1* 2?");
solve satisfy;
