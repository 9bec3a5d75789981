% n jobs with a task on each of n machines, in any order: done as early as can be.
int: n; set of int: J = 1..n;
array[J,J] of int: duration = array2d(J, J, [1 + ((i*i*389 + j*j*257 + i*j*61 + i*7 + j*5) mod 487) mod 40 | i, j in J]);
int: T = sum(duration);
array[J,J] of var 0..T: start; var 0..T: ends;
constraint forall(i, j in J)(start[i,j] + duration[i,j] <= ends);
constraint forall(i in J, j, k in J where j < k)(start[i,j] + duration[i,j] <= start[i,k] \/ start[i,k] + duration[i,k] <= start[i,j]);
constraint forall(j in J, i, k in J where i < k)(start[i,j] + duration[i,j] <= start[k,j] \/ start[k,j] + duration[k,j] <= start[i,j]);
solve :: int_search([ start[i,j] | i, j in J ], smallest, indomain_min, complete) minimize ends;
