% Columns in order.
include "globals.mzn";
int: n;
array[1..2, 1..3] of var 1..n: x;
constraint lex_chain_lesseq(x);
solve satisfy;
