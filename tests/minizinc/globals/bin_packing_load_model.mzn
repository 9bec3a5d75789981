% Parcels in vans, and what each van carries.
include "globals.mzn";
int: n;
array[1..n] of var 1..n: x;
array[1..n] of var 0..n: load;
constraint bin_packing_load(load, x, [ 1 + i mod 3 | i in 1..n ]);
solve satisfy;
