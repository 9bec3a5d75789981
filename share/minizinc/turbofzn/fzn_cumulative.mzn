% Gives the solver's own constraint where durations, needs and limit are fixed and at most 256 tasks last and need something.
% Else one sum for each time while tasks * times is at most 4,000, else one for each task's start: the standard library goes
% by times up to 5,000 of them, and has four propagators for each task and time. Two tasks that together pass the limit never
% run at once; this is said of itself, since bounds see it early.
include "pccp.mzn";
predicate fzn_cumulative(array[int] of var int: s, array[int] of var int: d, array[int] of var int: r, var int: b) =
  let { set of int: tasks = { i | i in index_set(s) where ub(r[i]) > 0 /\ ub(d[i]) > 0 } } in
  if card(tasks) = 0 then card(index_set(s)) = 0 \/ b >= 0
  elseif is_fixed(b) /\ card(tasks) <= 256 /\ forall(i in tasks)(is_fixed(d[i]) /\ is_fixed(r[i])) then
    if fix(b) < 0 then false
    else pccp_cumulative([ s[i] | i in tasks ], [ fix(d[i]) | i in tasks ], [ fix(r[i]) | i in tasks ], fix(b)) endif
  elseif not forall(i in tasks)(has_bounds(s[i]) /\ has_bounds(d[i]) /\ has_bounds(r[i])) then
    forall(j in tasks)(b >= sum(i in tasks)((s[i] <= s[j] /\ s[j] < s[i] + d[i]) * r[i]))
  else
    let { int: first = min([ lb(s[i]) | i in tasks ]); int: last = max([ ub(s[i]) + ub(d[i]) - 1 | i in tasks ]) } in
    if last - first + 1 <= 4000 div card(tasks) then turbofzn_cumulative_by_times(s, d, r, b, tasks, first..last)
    else turbofzn_cumulative_by_tasks(s, d, r, b, tasks) endif
  endif;
predicate turbofzn_cumulative_by_times(array[int] of var int: s, array[int] of var int: d, array[int] of var int: r, var int: b,
                                       set of int: tasks, set of int: times) =
  let { bool: is_fixed_need = is_fixed(b) /\ forall(i in tasks)(is_fixed(r[i])) } in
  forall(t in times)(
    let { array[int] of int: may_run = [ i | i in tasks where lb(s[i]) <= t /\ t < ub(s[i]) + ub(d[i]) ] } in
    if is_fixed_need then
      if sum(i in may_run)(fix(r[i])) <= fix(b) then true
      else bool_lin_le([ fix(r[i]) | i in may_run ], [ s[i] <= t /\ t < s[i] + d[i] | i in may_run ], fix(b)) endif
    else b >= sum(i in may_run)((s[i] <= t /\ t < s[i] + d[i]) * r[i]) endif);
predicate turbofzn_cumulative_by_tasks(array[int] of var int: s, array[int] of var int: d, array[int] of var int: r, var int: b,
                                       set of int: tasks) =
  let { set of int: lasting = { i | i in tasks where lb(d[i]) > 0 };
        % whether tasks i and j can't run at once
        array[int, int] of bool: apart = array2d(index_set(s), index_set(s),
          [ i != j /\ i in lasting /\ j in lasting /\ lb(r[i]) + lb(r[j]) > ub(b) | i, j in index_set(s) ]) } in
  forall(i, j in tasks where i < j /\ apart[i, j])(s[i] + d[i] <= s[j] \/ s[j] + d[j] <= s[i]) /\
  forall(j in tasks)(
    b >= r[j] * (d[j] > 0) + sum(i in tasks where i != j /\ not apart[i, j])((s[i] <= s[j] /\ s[j] < s[i] + d[i]) * r[i]));
