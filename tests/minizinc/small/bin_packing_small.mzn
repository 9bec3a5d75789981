% Five parcels in three vans of ten.
include "globals.mzn";
array[1..5] of var 1..3: van;
array[1..3] of var 0..10: load;
constraint bin_packing_load(load, van, [4, 6, 3, 5, 7]);
constraint load[1] >= load[2];
solve satisfy;
