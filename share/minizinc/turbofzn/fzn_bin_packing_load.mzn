% Gives one sum of booleans for each bin, its load, and one of the loads: together they are all weights.
predicate fzn_bin_packing_load(array[int] of var int: load, array[int] of var int: bin, array[int] of int: w) =
  let { array[int] of var int: x = array1d(bin); array[int] of int: v = array1d(w) } in
  forall(i in index_set(x))(x[i] in index_set(load)) /\
  forall(b in index_set(load))(bool_lin_eq(v, [ x[i] = b | i in index_set(x) ], load[b])) /\
  redundant_constraint(sum(load) = sum(v));
