% Gives the order of each two tasks, as the standard library does; where durations are fixed and more than two tasks last, also
% that they are tasks of one resource, so that bounds see all of them together.
include "pccp.mzn";
predicate fzn_disjunctive_strict(array[int] of var int: s, array[int] of var int: d) =
  forall(i in index_set(d))(d[i] >= 0) /\
  forall(i, j in index_set(d) where i < j)(s[i] + d[i] <= s[j] \/ s[j] + d[j] <= s[i]) /\
  turbofzn_one_at_a_time(s, d);
predicate turbofzn_one_at_a_time(array[int] of var int: s, array[int] of var int: d) =
  if forall(i in index_set(d))(is_fixed(d[i])) then
    let { set of int: lasting = { i | i in index_set(d) where fix(d[i]) > 0 } } in
    if card(lasting) > 2 /\ card(lasting) <= 256 then
      redundant_constraint(pccp_cumulative([ s[i] | i in lasting ], [ fix(d[i]) | i in lasting ], [ 1 | i in lasting ], 1))
    else true endif
  else true endif;
