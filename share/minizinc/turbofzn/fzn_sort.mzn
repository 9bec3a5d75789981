% Gives where each entry of the sorted list stands, as the standard library does; of equal ones the first stands first, so that -a
% finds a solution once. Both orders are one sum for each two on end, since two places differ by less than n.
include "fzn_all_different_int.mzn";
predicate fzn_sort(array[int] of var int: x, array[int] of var int: y) =
  let { array[int] of var int: u = array1d(x); array[int] of var int: v = array1d(y); int: n = length(u);
        bool: is_small = forall(j in 1..n)(has_bounds(v[j]) /\ max(-lb(v[j]), ub(v[j])) <= 1000000000);
        array[1..n] of var 1..n: place } in
  forall(j in 1..n)(u[place[j]] = v[j]) /\
  fzn_all_different_int(place) /\
  forall(j in 1..n - 1)(
    if is_small then n * v[j] + place[j] < n * v[j + 1] + place[j + 1]
    else v[j] <= v[j + 1] /\ (v[j] = v[j + 1] -> place[j] < place[j + 1]) endif);
