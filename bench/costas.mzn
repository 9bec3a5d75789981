% A Costas array of n: a permutation whose differences at each distance are different.
int: n; array[1..n] of var 1..n: p; array[1..n-1,1..n-1] of var 1-n..n-1: d;
constraint forall(i,j in 1..n where i<j)(p[i]!=p[j]);
constraint forall(k in 1..n-1,i in 1..n-k)(d[k,i]=p[i+k]-p[i]);
constraint forall(k in 1..n-1,i,j in 1..n-k where i<j)(d[k,i]!=d[k,j]);
constraint forall(k in 1..n-1,i in n-k+1..n-1)(d[k,i]=0);
solve :: int_search(p,input_order,indomain_min,complete) satisfy;
