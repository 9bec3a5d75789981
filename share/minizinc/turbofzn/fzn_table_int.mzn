% Gives the row's number and one element for each column, as the standard library does; rows outside the variables' domains and
% rows that stand twice fall away first (a row that stands twice would give its solution twice), and each column's values
% are told as a set. A table of more than 20,000 numbers is taken as it is, since going through it takes the compiler
% seconds, and of more than 500 rows those that stand twice stay.
predicate fzn_table_int(array[int] of var int: x, array[int, int] of int: t) =
  let { array[int] of var int: y = array1d(x); int: n = length(y); int: before = min(index_set_2of2(t)) - 1;
        bool: is_small = length(t) <= 20000;
        array[int] of int: fitting = [ k | k in index_set_1of2(t)
          where not is_small \/ forall(j in 1..n)(t[k, j + before] in dom(y[j])) ];
        array[int] of int: rows = if length(fitting) > 500 then fitting else [ fitting[a] | a in index_set(fitting)
          where not exists(c in 1..a - 1)(forall(j in 1..n)(t[fitting[c], j + before] = t[fitting[a], j + before])) ] endif;
        int: m = length(rows) } in
  if m = 0 then false
  else
    let { var 1..m: row } in
    forall(j in 1..n)([ t[rows[k], j + before] | k in 1..m ][row] = y[j]) /\
    if is_small then forall(j in 1..n)(y[j] in { t[rows[k], j + before] | k in 1..m }) else true endif
  endif;
