% Rows and columns in order, no two alike.
include "globals.mzn";
int: n;
array[1..2, 1..n] of var 1..2: x;
constraint strict_lex2(x);
solve satisfy;
