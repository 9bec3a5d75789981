% n jobs on one machine with due dates and weights: the least weighted tardiness.
int: n; array[1..n] of int: d=[3+(i*7919) mod 11|i in 1..n]; array[1..n] of int: w=[1+(i*104729) mod 5|i in 1..n];
int: T=sum(d); array[1..n] of int: due=[(i*31+17) mod (T div 2) + d[i]|i in 1..n];
array[1..n] of var 0..T: s; array[1..n] of var 0..T: late;
constraint forall(i,j in 1..n where i<j)(s[i]+d[i]<=s[j] \/ s[j]+d[j]<=s[i]);
constraint forall(i in 1..n)(s[i]+d[i]<=T /\ late[i]=max(0,s[i]+d[i]-due[i]));
solve :: int_search(s,smallest,indomain_min,complete) minimize sum(i in 1..n)(w[i]*late[i]);
