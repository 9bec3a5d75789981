% n pigeons in n - 1 holes, by inequations alone: there is no solution.
int: n; array[1..n] of var 1..n-1: p; constraint forall(i,j in 1..n where i<j)(p[i]!=p[j]);
solve :: int_search(p,input_order,indomain_min,complete) satisfy;
