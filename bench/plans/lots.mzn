% Lots of k products over n weeks: each week one product is made, or none; what is demanded is there; changes and stock cost as little as can be.
int: k; int: n; set of int: K = 1..k; set of int: W = 1..n;
array[K,W] of int: demand = array2d(K, W, [ if (p*5 + w*3 + p*w) mod 4 = 0 then 1 else 0 endif | p in K, w in W]);
array[W] of var 0..k: made; array[K,0..n] of var 0..n: stock; var int: cost;
constraint forall(p in K)(stock[p,0] = 2);
constraint forall(p in K, w in W)(stock[p,w] = stock[p,w-1] + 2*bool2int(made[w] = p) - demand[p,w]);
constraint cost = sum(w in 2..n)(4*bool2int(made[w] != made[w-1] /\ made[w] != 0)) + sum(p in K, w in W)(stock[p,w]);
solve :: int_search(made, input_order, indomain_min, complete) minimize cost;
