% Three parts that fit each other; a row stands twice, and one is outside the domains.
include "globals.mzn";
array[1..3] of var 1..4: part;
constraint table(part, [| 1, 2, 3 | 2, 2, 4 | 1, 2, 3 | 4, 1, 1 | 5, 1, 1 | 3, 3, 3 |]);
solve satisfy;
