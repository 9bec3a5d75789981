% Columns in order, no two alike.
include "globals.mzn";
int: n;
array[1..2, 1..n] of var 1..n: x;
constraint lex_chain_less(x);
solve satisfy;
