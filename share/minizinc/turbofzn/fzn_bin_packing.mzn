% Gives one sum of booleans for each bin, over the items that can lie in it, and sees at once what all bins together can't hold.
predicate fzn_bin_packing(int: c, array[int] of var int: bin, array[int] of int: w) =
  let { array[int] of var int: x = array1d(bin); array[int] of int: v = array1d(w) } in
  forall(b in dom_array(x))(
    bool_lin_le([ v[i] | i in index_set(x) where b in dom(x[i]) ], [ x[i] = b | i in index_set(x) where b in dom(x[i]) ], c)) /\
  if min(v ++ [0]) >= 0 /\ sum(v) > c * card(dom_array(x)) then false else true endif;
