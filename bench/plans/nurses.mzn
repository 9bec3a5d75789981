% n nurses over k days: 1 is free, 2 early, 3 late, 4 night. Each shift has its people, nobody works early or late after a night or early
% after a late shift, each works at most five days of seven and at least nine of fourteen, and as few wishes as can be aren't met.
int: n; int: k; set of int: P = 1..n; set of int: D = 1..k;
array[1..3] of int: need = [3, 3, 2];
array[P,D] of var 1..4: shift; var 0..n*k: unmet;
constraint forall(d in D, t in 1..3)(sum(p in P)(bool2int(shift[p,d] = t + 1)) >= need[t]);
constraint forall(p in P, d in 1..k-1)((shift[p,d] = 4 -> (shift[p,d+1] = 1 \/ shift[p,d+1] = 4)) /\ (shift[p,d] = 3 -> shift[p,d+1] != 2));
constraint forall(p in P, d in 1..k-6)(sum(e in d..d+6)(bool2int(shift[p,e] != 1)) <= 5);
constraint forall(p in P)(sum(d in D)(bool2int(shift[p,d] != 1)) >= (9*k) div 14);
constraint forall(p in P, d in 1..k-3)(sum(e in d..d+3)(bool2int(shift[p,e] = 4)) <= 3);
constraint unmet = sum(p in P, d in D where (p*13 + d*7) mod 5 = 0)(bool2int(shift[p,d] != 1 + (p + d) mod 4));
solve :: int_search([ shift[p,d] | d in D, p in P ], first_fail, indomain_max, complete) minimize unmet;
