% n people over k days: 1 is free, 2 early, 3 late, 4 night. Each shift has its people, no early or late one follows a night,
% nobody works more than five days of seven, and as few wishes as can be aren't met.
int: n; int: k; array[1..n,1..k] of var 1..4: x; array[1..3] of int: need=[2,2,1];
constraint forall(d in 1..k,t in 1..3)(sum(p in 1..n)(bool2int(x[p,d]=t+1))=need[t]);
constraint forall(p in 1..n,d in 1..k-1)(x[p,d]=4 -> x[p,d+1]=1 \/ x[p,d+1]=4);
constraint forall(p in 1..n,d in 1..k-1)(x[p,d]=3 -> x[p,d+1]!=2);
constraint forall(p in 1..n,d in 1..k-6)(sum(e in d..d+6)(bool2int(x[p,e]!=1))<=5);
constraint forall(p in 1..n)(sum(d in 1..k)(bool2int(x[p,d]!=1))>=(5*k-2) div n);
var int: unmet=sum(p in 1..n,d in 1..k where (p*13+d*7) mod 5=0)(bool2int(x[p,d]!=1+(p+d) mod 4));
solve :: int_search([x[p,d]|d in 1..k,p in 1..n],input_order,indomain_min,complete) minimize unmet;
