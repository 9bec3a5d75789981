% Who has which desk, and which desk is whose.
include "globals.mzn";
array[1..4] of var 1..4: desk_of;
array[1..4] of var 1..4: who_at;
constraint inverse(desk_of, who_at);
constraint desk_of[1] > who_at[1];
solve satisfy;
