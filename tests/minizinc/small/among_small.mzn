% Two to three of five days are early or late.
include "globals.mzn";
array[1..5] of var 0..3: shift;
var 2..3: busy;
constraint among(busy, shift, {1, 2});
constraint count(shift, 3) >= 2;
solve satisfy;
