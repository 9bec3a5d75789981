% n queens, by inequations alone: all solutions are asked for.
int: n; array[1..n] of var 1..n: q;
constraint forall(i,j in 1..n where i<j)(q[i]!=q[j] /\ q[i]+i!=q[j]+j /\ q[i]-i!=q[j]-j);
solve :: int_search(q, first_fail, indomain_min, complete) satisfy;
