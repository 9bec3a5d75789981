% Gives one sum for each place: a list comes before another from place i on where x[i] < y[i] + 1 and it does from i + 1 on, or
% where x[i] < y[i]; beyond the shorter one as is told. Each of these booleans follows from the lists, so that -a finds a
% solution once.
function var bool: turbofzn_is_before(array[int] of var int: x, array[int] of var int: y, int: i, bool: at_end) =
  if i > min(length(x), length(y)) then at_end
  else x[i] < y[i] + bool2int(turbofzn_is_before(x, y, i + 1, at_end)) endif;
