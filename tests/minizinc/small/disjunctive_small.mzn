% Three tasks on one machine.
include "globals.mzn";
array[1..3] of var 0..5: start;
var 0..8: makespan;
constraint disjunctive(start, [2, 3, 1]);
constraint makespan = max([start[1] + 2, start[2] + 3, start[3] + 1]);
solve satisfy;
