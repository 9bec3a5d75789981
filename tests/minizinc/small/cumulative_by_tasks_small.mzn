% The same over a horizon that is too wide to go by times.
include "globals.mzn";
array[1..3] of var {0, 1, 2, 3, 5000}: start;
var 1..3: hands;
constraint cumulative(start, [2, 1, 2], [2, 1, 1], hands);
constraint start[1] < start[2];
solve satisfy;
