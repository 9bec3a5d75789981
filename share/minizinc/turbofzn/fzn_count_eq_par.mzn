% Gives one sum of booleans, over the places that can hold the value. Other files of the library find fzn_count_eq by this one.
include "fzn_count_eq.mzn";
predicate fzn_count_eq_par(array[int] of var int: x, int: y, int: c) =
  let { array[int] of var bool: is_y = [ x[i] = y | i in index_set(x) where y in dom(x[i]) ] } in
  bool_lin_eq([ 1 | i in index_set(is_y) ], is_y, c);
