% Rows and columns in order.
include "globals.mzn";
int: n;
array[1..2, 1..n] of var 1..2: x;
constraint lex2(x);
solve satisfy;
