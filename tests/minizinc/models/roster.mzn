% Who works which shift. Rules have numbers: -D "rules={1,2,3}" keeps these alone.
include "globals.mzn";
enum SHIFT = { off, early, late, night };
int: people; int: days;
set of int: P = 1..people; set of int: D = 1..days;
array[SHIFT] of int: need;        % so many people each day
set of int: rules;
array[P, D] of var SHIFT: shift;
% 4: eight to ten days of work each. The bounds stand in the declaration.
int: least = if 4 in rules then 8 else 0 endif; int: most = if 4 in rules then 10 else days endif;
array[P] of var least..most: worked = [ count(d in D)(shift[p, d] != off) | p in P ];
% 1: each day's need. The sum follows from it by counting, and is what the solver can't count.
constraint 1 in rules -> forall(d in D, s in SHIFT where s != off)(count(p in P)(shift[p, d] = s) = need[s]);
constraint 1 in rules -> sum(worked) = days * sum(need);
% 2: rest, no early shift after a late one, and neither after a night
constraint 2 in rules -> forall(p in P, d in 1..days-1)(
  (shift[p, d] = night -> shift[p, d+1] in {night, off}) /\ (shift[p, d] = late -> shift[p, d+1] != early));
% 3: at most five days of work on end, and three nights
constraint 3 in rules ->
  forall(p in P, d in 1..days-5)(exists(k in d..d+5)(shift[p, k] = off)) /\
  forall(p in P, d in 1..days-3)(exists(k in d..d+3)(shift[p, k] != night));
% 5: at most four nights each
constraint 5 in rules -> forall(p in P)(count(d in D)(shift[p, d] = night) <= 4);
% The people come in another order each day, the night first.
solve :: int_search([ shift[(p + 4*d) mod people + 1, d] | d in D, p in P ], input_order, indomain_max) satisfy;
output [ show(shift[p, d]) ++ if d = days then "\n" else " " endif | p in P, d in D ];
