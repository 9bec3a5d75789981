% An odd number of five switches is on; whether one of four of them is, is asked as well.
include "globals.mzn";
array[1..5] of var bool: on;
var bool: is_first;
constraint xorall(on);
constraint is_first <-> xorall([on[1], on[2], on[3], on[5]]);
solve satisfy;
