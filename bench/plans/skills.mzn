% n tasks, each at a time and of a kind, are given to seven people who know some kinds; each pair of tasks at one time has two people,
% nobody has more than a fair share, and the price is as low as can be.
int: n; set of int: N = 1..n; set of int: P = 1..7;
array[N] of int: kind = [1 + ((i*i*5 + i*3) mod 17) mod 4 | i in N]; array[N] of int: time = [1 + i mod (n div 4) | i in N];
array[P] of set of int: knows = [{1,2}, {2,3}, {3,4}, {1,4}, {1,3}, {2,4}, {1,2,3,4}];
array[P] of int: wage = [5, 6, 5, 7, 6, 5, 9];
array[N] of var P: who; var int: cost;
constraint forall(i in N)(who[i] in { p | p in P where kind[i] in knows[p] });
constraint forall(i, j in N where i < j /\ time[i] = time[j])(who[i] != who[j]);
constraint forall(p in P)(sum(i in N)(bool2int(who[i] = p)) <= 1 + n div 6);
constraint cost = sum(i in N)(wage[who[i]]);
solve :: int_search(who, first_fail, indomain_min, complete) minimize cost;
