% Gives one sum of booleans for each value, and one of the counts: each place is counted once at most.
predicate fzn_global_cardinality(array[int] of var int: x, array[int] of int: cover, array[int] of var int: counts) =
  let { array[int] of int: v = array1d(cover); array[int] of var int: c = array1d(counts) } in
  forall(k in index_set(v))(
    let { array[int] of var bool: is_v = [ x[i] = v[k] | i in index_set(x) where v[k] in dom(x[i]) ] } in
    bool_lin_eq([ 1 | i in index_set(is_v) ], is_v, c[k])) /\
  % A value that stands twice in the cover counts twice.
  if card(array2set(v)) < length(v) then true
  elseif dom_array(x) subset array2set(v) then redundant_constraint(sum(c) = length(x))
  else redundant_constraint(sum(c) <= length(x)) endif;
