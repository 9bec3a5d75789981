% Gives what it is of integers: one sum for each place.
include "turbofzn_lex.mzn";
predicate fzn_lex_less_bool(array[int] of var bool: x, array[int] of var bool: y) =
  turbofzn_is_before([ bool2int(x[i]) | i in index_set(x) ], [ bool2int(y[i]) | i in index_set(y) ], 1, length(x) < length(y));
