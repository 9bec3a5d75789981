% Shapes of one or two boxes that don't overlap.
include "globals.mzn";
int: n;
array[1..2, 1..2] of var 1..n: x;
array[1..2] of var 1..2: kind;
constraint geost(2, [| 2, 1 | 1, 2 | 1, 1 |], [| 0, 0 | 0, 0 | 1, 1 |], [{1}, {2, 3}], x, kind);
solve satisfy;
