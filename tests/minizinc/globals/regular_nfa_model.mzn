% From 1 one may go on to 1 or 2, else to 1.
include "globals.mzn";
int: n;
array[1..n] of var 1..n: x;
constraint regular_nfa(x, 2, n, array2d(1..2, 1..n, [ if q = 1 then {1, 2} else if s = 1 then {1} else {} endif endif | q in 1..2, s in 1..n ]), 1, {1});
solve satisfy;
