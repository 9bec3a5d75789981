% Gives one sum for each place, in place of two comparisons and clauses whose booleans can be several ways for one solution.
include "turbofzn_lex.mzn";
predicate fzn_lex_lesseq_int(array[int] of var int: x, array[int] of var int: y) =
  turbofzn_is_before(array1d(x), array1d(y), 1, length(x) <= length(y));
