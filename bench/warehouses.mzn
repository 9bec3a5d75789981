% Which of m warehouses are opened, and which serves each of n shops: the least cost.
int: n; int: m; array[1..n,1..m] of int: cost=array2d(1..n,1..m,[5+(i*i*31+j*j*17+i*j*7) mod 43|i in 1..n,j in 1..m]);
array[1..n] of var 1..m: by; array[1..m] of var 0..1: opened; array[1..n] of var 0..100: pay;
constraint forall(i in 1..n)(pay[i]=cost[i,by[i]]);
constraint forall(i in 1..n,j in 1..m)(by[i]=j -> opened[j]=1);
constraint forall(j in 1..m)(sum(i in 1..n)(bool2int(by[i]=j))<=2+j mod 3);
solve :: int_search(by,first_fail,indomain_min,complete) minimize sum(pay)+30*sum(opened);
