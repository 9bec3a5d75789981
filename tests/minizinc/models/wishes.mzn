% Who works which shift, with as few wishes for a free day passed over as may be.
include "globals.mzn";
enum SHIFT = { off, early, late, night };
int: people; int: days;
set of int: P = 1..people; set of int: D = 1..days;
array[SHIFT] of int: need;        % so many people each day
array[P, D] of 0..5: wish;        % how much it matters to be off
array[P, D] of var SHIFT: shift;
array[P] of var 8..10: worked = [ count(d in D)(shift[p, d] != off) | p in P ];
constraint forall(d in D, s in SHIFT where s != off)(count(p in P)(shift[p, d] = s) = need[s]);
constraint sum(worked) = days * sum(need);
constraint forall(p in P, d in 1..days-1)(
  (shift[p, d] = night -> shift[p, d+1] in {night, off}) /\ (shift[p, d] = late -> shift[p, d+1] != early));
constraint forall(p in P, d in 1..days-5)(exists(k in d..d+5)(shift[p, k] = off));
constraint forall(p in P, d in 1..days-3)(exists(k in d..d+3)(shift[p, k] != night));
constraint forall(p in P)(count(d in D)(shift[p, d] = night) <= 4);
var 0..sum(array1d(wish)): cost;
constraint cost = sum(p in P, d in D)(wish[p, d] * (shift[p, d] != off));
solve :: int_search([ shift[(p + 4*d) mod people + 1, d] | d in D, p in P ], input_order, indomain_max) minimize cost;
output ["cost \(cost)\n"] ++ [ show(shift[p, d]) ++ if d = days then "\n" else " " endif | p in P, d in D ];
