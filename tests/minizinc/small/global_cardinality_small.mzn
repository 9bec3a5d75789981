% How often each of three shifts is worked in five days.
include "globals.mzn";
array[1..5] of var 1..4: shift;
array[1..3] of var 0..5: count_of;
constraint global_cardinality(shift, [1, 2, 3], count_of);
constraint count_of[1] = 2 /\ count_of[2] > count_of[3];
solve satisfy;
