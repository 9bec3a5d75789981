% A knapsack of n things with made weights and values, half of all weights fit in.
int: n; array[1..n] of int: w=[ 17+(i*7919) mod 83 | i in 1..n]; array[1..n] of int: v=[ 11+(i*104729) mod 97 | i in 1..n];
array[1..n] of var 0..1: x; var 0..100000: p; constraint sum(i in 1..n)(w[i]*x[i]) <= sum(w) div 2; constraint p=sum(i in 1..n)(v[i]*x[i]);
solve :: int_search(x,input_order,indomain_max,complete) maximize p;
