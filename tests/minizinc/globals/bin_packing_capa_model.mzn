% Parcels in vans, each with a room of its own.
include "globals.mzn";
int: n;
array[1..n] of var 1..n: x;
constraint bin_packing_capa([ 1 + v | v in 1..n ], x, [ 1 + i mod 3 | i in 1..n ]);
solve satisfy;
