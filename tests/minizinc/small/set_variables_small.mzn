% Two groups of four people that share one person; set variables become booleans.
include "globals.mzn";
array[1..2] of var set of 1..4: group;
constraint card(group[1] intersect group[2]) = 1 /\ card(group[1]) >= card(group[2]);
constraint not (2 in group[1]) \/ 3 in group[2];
solve satisfy;
