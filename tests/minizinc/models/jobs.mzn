% When each job's steps begin, on machines that are set up anew between families: done as early as may be.
int: jobs; int: machines; int: steps;
set of int: J = 1..jobs; set of int: M = 1..machines; set of int: S = 1..steps;
array[J, S] of M: machine; array[J, S] of int: duration;
array[J] of int: family; int: families = max(family);
array[1..families, 1..families] of int: setup;
int: horizon = sum(duration) + jobs * steps * max(setup);
array[J, M] of S: step_on = array2d(J, M, [ sum(s in S where machine[j, s] = m)(s) | j in J, m in M ]);
array[J, S] of var 0..horizon: start;
var 0..horizon: makespan;
constraint forall(j in J, s in 1..steps-1)(start[j, s] + duration[j, s] <= start[j, s+1]);
constraint forall(j in J)(start[j, steps] + duration[j, steps] <= makespan);
% before[m, i, j]: on machine m job i goes before job j
array[M, J, J] of var bool: before;
constraint forall(m in M, i, j in J where i >= j)(not before[m, i, j]);
constraint forall(m in M, i, j in J where i < j)(
  let { int: a = step_on[i, m]; int: b = step_on[j, m] } in
  (before[m, i, j] <-> start[i, a] + duration[i, a] + setup[family[i], family[j]] <= start[j, b]) /\
  (not before[m, i, j] <-> start[j, b] + duration[j, b] + setup[family[j], family[i]] <= start[i, a]));
solve :: bool_search(array1d(before), input_order, indomain_max) minimize makespan;
output ["done at \(makespan)\n"] ++ [ "job \(j) step \(s) on machine \(machine[j, s]) from \(start[j, s])\n" | j in J, s in S ];
