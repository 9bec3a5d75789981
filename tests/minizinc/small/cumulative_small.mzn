% Four tasks that share three hands, done within eight hours.
include "globals.mzn";
array[1..4] of var 0..5: start;
array[1..4] of int: duration = [3, 2, 3, 4];
constraint cumulative(start, duration, [2, 1, 2, 1], 3);
constraint forall(i in 1..4)(start[i] + duration[i] <= 8);
solve satisfy;
