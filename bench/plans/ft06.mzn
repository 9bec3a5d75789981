% The job shop of six jobs and six machines by Fisher and Thompson (1963): done as early as can be, which is at 55.
set of int: J = 1..6;
array[J,J] of int: machine = [| 3,1,2,4,6,5 | 2,3,5,6,1,4 | 3,4,6,1,2,5 | 2,1,3,4,5,6 | 3,2,5,6,1,4 | 2,4,6,1,5,3 |];
array[J,J] of int: duration = [| 1,3,6,7,3,6 | 8,5,10,10,10,4 | 5,4,8,9,1,7 | 5,5,5,3,8,9 | 9,3,5,4,3,1 | 3,3,9,10,4,1 |];
int: T = sum(duration);
array[J,J] of var 0..T: start; var 0..T: ends;
constraint forall(i in J, j in 1..5)(start[i,j] + duration[i,j] <= start[i,j+1]);
constraint forall(i in J)(start[i,6] + duration[i,6] <= ends);
constraint forall(i, k in J, j, l in J where i < k /\ machine[i,j] = machine[k,l])(
  start[i,j] + duration[i,j] <= start[k,l] \/ start[k,l] + duration[k,l] <= start[i,j]);
solve :: int_search([ start[i,j] | i, j in J ], smallest, indomain_min, complete) minimize ends;
