% As few colours as can be for n places of a made map of neighbours.
int: n; int: k; array[1..n] of var 1..k: c; var 1..k: most;
constraint forall(i,j in 1..n where i<j /\ (i*i*7+j*j*3+i*j) mod 11<5)(c[i]!=c[j]);
constraint forall(i in 1..n)(c[i]<=most); constraint forall(i in 1..k)(c[i]<=i);
solve :: int_search(c,first_fail,indomain_min,complete) minimize most;
