% n jobs on m machines with made durations, one job at a time on each: the least makespan.
include "disjunctive.mzn";
int: n; int: m; array[1..n,1..m] of int: d=array2d(1..n,1..m,[1+((i*31+j*17)*7) mod 19|i in 1..n,j in 1..m]);
array[1..n,1..m] of int: mach=array2d(1..n,1..m,[1+(i*j+j*5+i*3) mod m|i in 1..n,j in 1..m]);
int: T=sum([d[i,j]|i in 1..n,j in 1..m]); array[1..n,1..m] of var 0..T: s; var 0..T: mk;
constraint forall(i in 1..n,j in 1..m-1)(s[i,j]+d[i,j]<=s[i,j+1]); constraint forall(i in 1..n)(s[i,m]+d[i,m]<=mk);
constraint forall(k in 1..m)(disjunctive([s[i,j]|i in 1..n,j in 1..m where mach[i,j]=k],[d[i,j]|i in 1..n,j in 1..m where mach[i,j]=k]));
solve :: int_search([s[i,j]|i in 1..n,j in 1..m],smallest,indomain_min,complete) minimize mk;
