% n tours are given to k vehicles, each of a capacity and a price for each tour: as cheap as can be.
int: n; int: k; set of int: N = 1..n; set of int: K = 1..k;
array[N] of int: load = [3 + ((i*i*37 + i*11) mod 71) mod 12 | i in N];
array[K,N] of int: price = array2d(K, N, [5 + ((i*i*19 + v*v*43 + i*v*29) mod 97) mod 30 | v in K, i in N]);
int: room = 1 + (sum(load)*11) div (10*k);
array[N] of var K: by; var int: cost;
constraint forall(v in K)(sum(i in N)(load[i]*bool2int(by[i] = v)) <= room);
constraint cost = sum(i in N)([ price[v,i] | v in K ][by[i]]);
solve :: int_search(by, first_fail, indomain_min, complete) minimize cost;
