% Gives one sum of booleans: the standard library's sum has an integer beside each of them.
predicate fzn_count_eq(array[int] of var int: x, var int: y, var int: c) =
  bool_lin_eq([ 1 | i in index_set(x) ], [ x[i] = y | i in index_set(x) ], c);
