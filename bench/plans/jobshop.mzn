% n jobs, each once on each of m machines, in an order of its own: done as early as can be. Durations are 1 to 99, made by arithmetic.
int: n; int: m; set of int: J = 1..n; set of int: S = 1..m;
function int: key(int: i, int: j) = ((i*i*73 + j*j*41 + i*j*137 + j*11) mod 997)*m + j;
array[J,S] of int: machine = array2d(J, S, [1 + sum(k in S)(bool2int(key(i,k) < key(i,j))) | i in J, j in S]);
array[J,S] of int: duration = array2d(J, S, [1 + ((i*i*577 + j*j*331 + i*j*97 + i*13 + j*29) mod 991) mod 99 | i in J, j in S]);
int: T = sum(duration);
array[J,S] of var 0..T: start; var 0..T: ends;
constraint forall(i in J, j in 1..m-1)(start[i,j] + duration[i,j] <= start[i,j+1]);
constraint forall(i in J)(start[i,m] + duration[i,m] <= ends);
array[1..m*n*(n-1) div 2] of var bool: before;
array[1..m*n*(n-1) div 2, 1..4] of int: pairs = array2d(1..m*n*(n-1) div 2, 1..4, [ [i,j,k,l][c] | i, k in J, j, l in S where i < k /\ machine[i,j] = machine[k,l], c in 1..4 ]);
constraint forall(p in index_set(before))(
  (before[p] <-> start[pairs[p,1],pairs[p,2]] + duration[pairs[p,1],pairs[p,2]] <= start[pairs[p,3],pairs[p,4]]) /\
  (not before[p] <-> start[pairs[p,3],pairs[p,4]] + duration[pairs[p,3],pairs[p,4]] <= start[pairs[p,1],pairs[p,2]]));
solve :: bool_search(before, first_fail, indomain_max, complete) minimize ends;
