% Gives one sum of booleans, one for each value that a place can have: it is there.
predicate fzn_nvalue(var int: n, array[int] of var int: x) =
  let { set of int: values = dom_array(x) } in
  bool_lin_eq([ 1 | v in values ], [ exists(i in index_set(x) where v in dom(x[i]))(x[i] = v) | v in values ], n);
