% n things in k bins of one capacity, with made weights.
int: n; int: k; int: cap; array[1..n] of int: w=[3+(i*7919) mod 17|i in 1..n]; array[1..n] of var 1..k: b;
constraint forall(j in 1..k)(sum(i in 1..n)(w[i]*bool2int(b[i]=j))<=cap); constraint forall(i in 1..n-1)(b[i]<=i);
solve :: int_search(b,first_fail,indomain_min,complete) satisfy;
