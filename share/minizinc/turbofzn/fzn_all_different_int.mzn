% Gives the solver's own constraint, which sees that as many variables as values are left take them all, in place of one
% difference for each two; that takes at most 256 entries. It sees more variables than values at once.
include "pccp.mzn";
predicate fzn_all_different_int(array[int] of var int: x) =
  let { array[int] of var int: y = array1d(x); int: n = length(y) } in
  if n <= 1 then true
  elseif forall(i in 1..n)(has_bounds(y[i])) /\ card(dom_array(y)) < n then false
  elseif n = 2 then y[1] != y[2]
  elseif n > 256 then forall(i, j in 1..n where i < j)(y[i] != y[j])
  else pccp_all_different(y) endif;
