% Gives one sum of booleans: the standard library's sum has an integer beside each of them.
predicate fzn_among(var int: n, array[int] of var int: x, set of int: v) =
  bool_lin_eq([ 1 | i in index_set(x) ], [ x[i] in v | i in index_set(x) ], n);
