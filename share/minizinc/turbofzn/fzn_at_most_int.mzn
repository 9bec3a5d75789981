% Gives one sum of booleans, over the places that can hold the value.
predicate fzn_at_most_int(int: n, array[int] of var int: x, int: v) =
  let { array[int] of var bool: is_v = [ x[i] = v | i in index_set(x) where v in dom(x[i]) ] } in
  bool_lin_le([ 1 | i in index_set(is_v) ], is_v, n);
