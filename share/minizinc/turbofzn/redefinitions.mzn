% Gives what the standard library leaves to the solver and this one doesn't take, said with what it takes.

% Set variables become arrays of booleans.
include "nosets.mzn";

% An odd number is true: halves, as the solver takes an exclusive or of two and of three.
predicate array_bool_xor(array[int] of var bool: as) =
  let { array[int] of var bool: a = array1d(as) } in
  if length(a) = 0 then false else turbofzn_is_odd(a, 1, length(a)) endif;
function var bool: turbofzn_is_odd(array[int] of var bool: a, int: first, int: last) =
  if first = last then a[first]
  else let { int: middle = (first + last) div 2 } in
    turbofzn_is_odd(a, first, middle) xor turbofzn_is_odd(a, middle + 1, last)
  endif;

% A power whose exponent isn't fixed: one element of a table, as no bound of a power is known otherwise. An exponent below 0
% is what the standard library says, 1 div the power. Pairs whose power no integer of the solver can be are left out.
predicate int_pow(var int: x, var int: y, var int: z) =
  assert(has_bounds(x) /\ has_bounds(y), "turbofzn: a power needs a base and an exponent with bounds",
    turbofzn_power(x, y, z));
predicate turbofzn_power(var int: x, var int: y, var int: z) =
  let {
    set of int: X = lb(x)..ub(x);
    set of int: Y = lb(y)..ub(y);
    array[int] of bool: fits = [ turbofzn_power_fits(a, b) | a in X, b in Y ];
    array[int] of int: powers = [ if turbofzn_power_fits(a, b) then turbofzn_power_of(a, b) else 0 endif | a in X, b in Y ];
  } in
  (forall(fits) \/ array2d(X, Y, fits)[x, y]) /\ z = array2d(X, Y, powers)[x, y];
test turbofzn_power_fits(int: a, int: b) =
  (a != 0 \/ b >= 0) /\ (abs(a) <= 1 \/ b <= 1 \/ b * ln(int2float(abs(a))) < 32.57);
function int: turbofzn_power_of(int: a, int: b) =
  if b >= 0 then pow(a, b) elseif abs(a) > 1 then 0 elseif a = 1 \/ b mod 2 = 0 then 1 else -1 endif;
