% A project of n tasks with predecessors and four resources: done as early as can be.
include "cumulative.mzn";
int: n; set of int: N = 1..n; set of int: R = 1..4;
array[N] of int: duration = [1 + ((i*i*353 + i*71) mod 463) mod 10 | i in N];
array[R,N] of int: use = array2d(R, N, [ if ((i*i*29 + r*r*83 + i*r*37) mod 101) mod 2 = 0 then 1 + ((i*i*17 + r*59 + i*r*23) mod 89) mod 9 else 0 endif | r in R, i in N]);
array[R] of int: limit = [12, 13, 11, 14];
int: T = (sum(duration)*3) div 4;
array[N] of var 0..T: start; var 0..T: ends;
constraint forall(i in N)(start[i] + duration[i] <= ends);
constraint forall(i, j in N where i < j /\ j - i <= 9 /\ ((i*i*7 + j*j*11 + i*j*5) mod 31) mod 6 = 0)(start[i] + duration[i] <= start[j]);
constraint forall(r in R)(cumulative(start, duration, [ use[r,i] | i in N ], limit[r]));
solve :: int_search(start, smallest, indomain_min, complete) minimize ends;
