% The powers of power.mzn, written out: 99 where there is none.
include "globals.mzn";
var -3..3: base;
var -2..4: exponent;
var -30..30: power;
array[-3..3, -2..4] of int: known = array2d(-3..3, -2..4,
  [ 0, 0, 1, -3, 9, -27, 81,
    0, 0, 1, -2, 4, -8, 16,
    1, -1, 1, -1, 1, -1, 1,
    99, 99, 1, 0, 0, 0, 0,
    1, 1, 1, 1, 1, 1, 1,
    0, 0, 1, 2, 4, 8, 16,
    0, 0, 1, 3, 9, 27, 81 ]);
constraint table([base, exponent, power], array2d(1..49, 1..3,
  [ [b, e, known[b, e]][k] | b in -3..3, e in -2..4, k in 1..3 ]));
solve satisfy;
