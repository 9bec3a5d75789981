% A line with two bends, of floats.
include "globals.mzn";
int: n;
var 0.0..4.0: x;
var 0.0..4.0: y;
constraint piecewise_linear(x, y, [0.0, 1.0, 4.0], [0.0, 2.0, 4.0]);
solve satisfy;
