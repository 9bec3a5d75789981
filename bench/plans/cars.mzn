% A line of n cars of six kinds and five options: of each b in a row at most a may have an option.
int: n; set of int: N = 1..n; set of int: K = 1..6; set of int: O = 1..5;
array[K] of int: share = [ n - 5*(n div 6) ] ++ [ n div 6 | i in 2..6 ];
array[O] of int: most = [1,2,1,2,1]; array[O] of int: row = [2,3,3,5,5];
array[K,O] of 0..1: has = [| 1,0,1,1,0 | 0,0,0,1,0 | 0,1,0,0,1 | 0,1,0,1,0 | 1,0,1,0,0 | 1,1,0,0,0 |];
array[N] of var K: kind;
constraint forall(t in K)(sum(i in N)(bool2int(kind[i] = t)) = share[t]);
constraint forall(o in O, i in 1..n - row[o] + 1)(sum(j in i..i + row[o] - 1)(sum(t in K where has[t,o] = 1)(bool2int(kind[j] = t))) <= most[o]);
solve :: int_search(kind, input_order, indomain_max, complete) satisfy;
