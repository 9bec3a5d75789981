% One list not behind the other.
include "globals.mzn";
int: n;
array[1..n] of var 1..3: x;
array[1..n] of var 1..3: y;
constraint lex_lesseq(x, y);
solve satisfy;
