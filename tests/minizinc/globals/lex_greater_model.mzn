% One list behind the other.
include "globals.mzn";
int: n;
array[1..n] of var 1..3: x;
array[1..n] of var 1..3: y;
constraint lex_greater(x, y);
solve satisfy;
