% Gives two sums of booleans for each value, its least and its greatest count, in place of a variable for the count.
predicate fzn_global_cardinality_low_up(array[int] of var int: x, array[int] of int: cover,
                                        array[int] of int: lbound, array[int] of int: ubound) =
  let { array[int] of int: v = array1d(cover);
        array[int] of int: least = array1d(lbound); array[int] of int: most = array1d(ubound) } in
  forall(k in index_set(v))(
    let { array[int] of var bool: is_v = [ x[i] = v[k] | i in index_set(x) where v[k] in dom(x[i]) ] } in
    bool_lin_le([ 1 | i in index_set(is_v) ], is_v, most[k]) /\
    if least[k] > 0 then bool_lin_le([ -1 | i in index_set(is_v) ], is_v, -least[k]) else true endif);
