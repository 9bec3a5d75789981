% The sum of one row of a table.
include "globals.mzn";
int: n;
var 1..n: row;
var 0..n * n: total;
constraint sum_pred(row, [ {v, v mod n + 1} | v in 1..n ], [ v * v mod n | v in 1..n ], total);
solve satisfy;
