% Gives one sum of booleans for each bin, over the items that can lie in it.
predicate fzn_bin_packing_capa(array[int] of int: c, array[int] of var int: bin, array[int] of int: w) =
  let { array[int] of var int: x = array1d(bin); array[int] of int: v = array1d(w) } in
  forall(i in index_set(x))(x[i] in index_set(c)) /\
  forall(b in index_set(c))(
    bool_lin_le([ v[i] | i in index_set(x) where b in dom(x[i]) ], [ x[i] = b | i in index_set(x) where b in dom(x[i]) ], c[b]));
