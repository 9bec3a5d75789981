% Which of 40 options a machine is built with: of the greatest worth within a budget.
include "globals.mzn";
int: options; set of int: O = 1..options;
array[O] of int: price; array[O] of int: worth_of; array[O] of int: watts; array[O] of int: slots;
int: budget; int: power;
array[int, 1..2] of O: needs;        % the first only with the second
array[int, 1..2] of O: excludes;     % not both
array[int] of set of O: one_of;      % exactly one
array[int] of int: frame_price; array[int] of int: frame_slots;
set of int: F = index_set(frame_price);
array[O] of var bool: take;
var F: frame;
var 0..budget: cost;
var 0..sum(worth_of): worth;
constraint forall(k in index_set_1of2(needs))(take[needs[k, 1]] -> take[needs[k, 2]]);
constraint forall(k in index_set_1of2(excludes))(not (take[excludes[k, 1]] /\ take[excludes[k, 2]]));
constraint forall(g in one_of)(sum(o in g)(take[o]) = 1);
constraint cost = sum(o in O)(price[o] * take[o]) + frame_price[frame];
constraint sum(o in O)(watts[o] * take[o]) <= power;
constraint sum(o in O)(slots[o] * take[o]) <= frame_slots[frame];
constraint table([bool2int(take[1]), bool2int(take[2]), frame],
  [| 0,0,1 | 0,0,2 | 0,1,3 | 1,0,3 | 1,0,4 | 1,1,5 |]);
constraint worth = sum(o in O)(worth_of[o] * take[o]);
solve maximize worth;
output ["worth \(worth), cost \(cost), frame \(frame), options \([ o | o in O where fix(take[o]) ])\n"];
