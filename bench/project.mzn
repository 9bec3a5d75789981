% A project of n tasks with precedences and two resources: the least end.
include "cumulative.mzn";
int: n; array[1..n] of int: d=[1+(i*7919) mod 7|i in 1..n]; int: T=sum(d);
array[1..n] of int: a=[1+(i*31) mod 4|i in 1..n]; array[1..n] of int: b=[(i*17) mod 5|i in 1..n];
array[1..n] of var 0..T: s; var 0..T: ends;
constraint forall(i in 1..n)(s[i]+d[i]<=ends);
constraint forall(i,j in 1..n where i<j /\ (i*11+j*7) mod 9=0)(s[i]+d[i]<=s[j]);
constraint cumulative(s,d,a,6); constraint cumulative(s,d,b,7);
solve :: int_search(s,smallest,indomain_min,complete) minimize ends;
