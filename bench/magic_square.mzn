% A magic square of n rows.
int: n; int: s=n*(n*n+1) div 2; array[1..n,1..n] of var 1..n*n: x;
constraint forall(i,j in 1..n*n where i<j)(x[(i-1) div n+1,(i-1) mod n+1]!=x[(j-1) div n+1,(j-1) mod n+1]);
constraint forall(i in 1..n)(sum(j in 1..n)(x[i,j])=s /\ sum(j in 1..n)(x[j,i])=s);
constraint sum(i in 1..n)(x[i,i])=s; constraint sum(i in 1..n)(x[i,n+1-i])=s;
constraint x[1,1]<x[1,n] /\ x[1,1]<x[n,1] /\ x[1,1]<x[n,n] /\ x[1,n]<x[n,1];
solve :: int_search([x[i,j]|i,j in 1..n],input_order,indomain_min,complete) satisfy;
