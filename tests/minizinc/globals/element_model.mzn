% The value at a place.
include "globals.mzn";
int: n;
array[1..n] of var 1..n: x;
var 1..n: place;
var 1..n: value;
constraint element(place, x, value);
solve satisfy;
