% A task lasts from the first to the end of its parts.
include "globals.mzn";
int: n;
var 0..n: start;
var 1..n: duration;
array[1..2] of var opt 0..n: part;
constraint occurs(part[1]) /\ span(start, duration, part, [1, 2]);
solve satisfy;
