% Quasigroups of n elements in which each element times itself is itself, and ((b*a)*b)*b = a.
include "alldifferent.mzn";
int: n; array[1..n,1..n] of var 1..n: q;
constraint forall(i in 1..n)(q[i,i]=i);
constraint forall(i in 1..n)(alldifferent([q[i,j]|j in 1..n]) /\ alldifferent([q[j,i]|j in 1..n]));
constraint forall(a,b in 1..n)(q[q[q[b,a],b],b]=a);
constraint forall(i in 1..n)(q[i,n]>=i-1);
solve :: int_search([q[i,j]|i,j in 1..n],first_fail,indomain_min,complete) satisfy;
