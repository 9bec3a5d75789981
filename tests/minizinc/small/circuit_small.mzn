% A round trip of five places.
include "globals.mzn";
array[1..5] of var 1..5: next;
constraint circuit(next);
constraint next[1] != 2 /\ next[3] > 3;
solve satisfy;
