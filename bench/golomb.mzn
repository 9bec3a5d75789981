% A Golomb ruler of m marks, the shortest: differences are apart by inequations of four terms.
int: m; int: n=m*m;
array[1..m] of var 0..n: mark;
array[1..(m*(m-1)) div 2] of var 0..n: d = [mark[j]-mark[i] | i in 1..m, j in i+1..m];
constraint mark[1]=0; constraint forall(i in 1..m-1)(mark[i]<mark[i+1]);
constraint forall(a,b in index_set(d) where a<b)(d[a]!=d[b]);
constraint d[1] < d[(m*(m-1)) div 2];
solve :: int_search(mark,input_order,indomain_min,complete) minimize mark[m];
