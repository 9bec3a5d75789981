% Parcels in vans with room for n and one.
include "globals.mzn";
int: n;
array[1..n] of var 1..n: x;
constraint bin_packing(n + 1, x, [ 1 + i mod 3 | i in 1..n ]);
solve satisfy;
