% Gives one sum of booleans, over the places that can hold the value; they are c or fewer.
predicate fzn_count_geq_par(array[int] of var int: x, int: y, int: c) =
  let { array[int] of var bool: is_y = [ x[i] = y | i in index_set(x) where y in dom(x[i]) ] } in
  bool_lin_le([ 1 | i in index_set(is_y) ], is_y, c);
