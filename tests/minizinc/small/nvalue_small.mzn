% At most two kinds in five places.
include "globals.mzn";
array[1..5] of var 1..4: kind;
var 1..2: kinds;
constraint nvalue(kinds, kind);
constraint sum(kind) = 11;
solve satisfy;
