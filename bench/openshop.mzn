% n jobs on m machines, each job once on each machine in any order: the least makespan.
int: n; int: m; array[1..n,1..m] of int: d=array2d(1..n,1..m,[2+((i*37+j*23)*11) mod 17|i in 1..n,j in 1..m]);
int: T=sum([d[i,j]|i in 1..n,j in 1..m]); array[1..n,1..m] of var 0..T: s; var 0..T: mk;
constraint forall(i in 1..n,j in 1..m)(s[i,j]+d[i,j]<=mk);
constraint forall(i in 1..n,j,k in 1..m where j<k)(s[i,j]+d[i,j]<=s[i,k] \/ s[i,k]+d[i,k]<=s[i,j]);
constraint forall(j in 1..m,i,k in 1..n where i<k)(s[i,j]+d[i,j]<=s[k,j] \/ s[k,j]+d[k,j]<=s[i,j]);
solve :: int_search([s[i,j]|i in 1..n,j in 1..m],smallest,indomain_min,complete) minimize mk;
