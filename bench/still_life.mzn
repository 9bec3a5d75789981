% The densest still life on a board of n by n.
int: n; array[0..n+1,0..n+1] of var 0..1: c; constraint forall(i in 0..n+1)(c[0,i]=0/\c[n+1,i]=0/\c[i,0]=0/\c[i,n+1]=0);
constraint forall(i in 1..n,j in 1..n)(let{var 0..8: s=sum(a in -1..1,b in -1..1 where a!=0 \/ b!=0)(c[i+a,j+b])} in (s=3 -> c[i,j]=1) /\ (s<2 \/ s>3 -> c[i,j]=0));
constraint forall(i in 1..n-2)(c[1,i]+c[1,i+1]+c[1,i+2]<3 /\ c[n,i]+c[n,i+1]+c[n,i+2]<3 /\ c[i,1]+c[i+1,1]+c[i+2,1]<3 /\ c[i,n]+c[i+1,n]+c[i+2,n]<3);
solve :: int_search([c[i,j]|i,j in 1..n],input_order,indomain_max,complete) maximize sum(i,j in 1..n)(c[i,j]);
