% Six letters on six shelves, no two alike, and neighbours apart.
include "globals.mzn";
array[1..6] of var 1..6: shelf;
constraint all_different(shelf);
constraint forall(i in 1..5)(abs(shelf[i] - shelf[i + 1]) > 1);
solve satisfy;
