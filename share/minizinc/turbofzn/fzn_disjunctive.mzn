% Gives the order of each two tasks that last, and the same constraint of all together as for those that have to last.
include "fzn_disjunctive_strict.mzn";
predicate fzn_disjunctive(array[int] of var int: s, array[int] of var int: d) =
  forall(i in index_set(d))(d[i] >= 0) /\
  forall(i, j in index_set(d) where i < j)(d[i] = 0 \/ d[j] = 0 \/ s[i] + d[i] <= s[j] \/ s[j] + d[j] <= s[i]) /\
  turbofzn_one_at_a_time(s, d);
