% Four tasks on one machine, of which one takes no time.
include "globals.mzn";
array[1..4] of var 0..6: start;
constraint disjunctive(start, [2, 0, 3, 1]);
constraint forall(i in 1..3)(start[i] <= start[i + 1]);
solve satisfy;
