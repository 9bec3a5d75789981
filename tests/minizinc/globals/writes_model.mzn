% A list of which two places are written anew.
include "globals.mzn";
int: n;
array[1..n] of var 1..n: x;
array[1..n] of var 1..n: y;
constraint y = writes(x, [1, n], [2, 3]);
solve satisfy;
