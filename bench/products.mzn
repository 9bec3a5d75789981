% n different numbers in a row: the least sum of the products of neighbours.
int: n; array[1..n] of var 1..n+1: x; array[1..n-1] of var 1..(n+1)*(n+1): z;
constraint forall(i,j in 1..n where i<j)(x[i]!=x[j]); constraint forall(i in 1..n-1)(z[i]=x[i]*x[i+1]);
solve :: int_search(x,input_order,indomain_min,complete) minimize sum(z);
