% Langford's sequences of n numbers: all are asked for.
int: n; array[1..2*n] of var 1..2*n: p; array[1..2*n] of var 1..2*n: s;
constraint forall(i in 1..n)(p[i+n]=p[i]+i+1); constraint forall(i,j in 1..2*n where i<j)(p[i]!=p[j]);
solve :: int_search(p,first_fail,indomain_min,complete) satisfy;
