% A van visits n places, each within a time, and comes back: as early as can be.
include "alldifferent.mzn";
int: n; set of int: N = 1..n;
function int: far(int: a, int: b) = if a = b then 0 else 2 + ((abs(a-b)*37 + a*b*13) mod 41) mod 17 endif;
array[0..n,0..n] of int: way = array2d(0..n, 0..n, [ far(a,b) | a, b in 0..n ]);
array[N] of int: opens = [ ((i*i*29 + i*7) mod 83) mod 60 | i in N ];
array[N] of int: closes = [ opens[i] + 60 + (i*19) mod 40 | i in N ];
array[N] of var N: stop; array[N] of var 0..300: at; var 0..300: back;
constraint alldifferent(stop);
constraint at[1] >= [ way[0,i] | i in N ][stop[1]];
constraint forall(t in 1..n-1)(at[t+1] >= at[t] + [ way[i,j] | i, j in N ][(stop[t]-1)*n + stop[t+1]]);
constraint forall(t in N)(at[t] >= opens[stop[t]] /\ at[t] <= closes[stop[t]]);
constraint back = at[n] + [ way[i,0] | i in N ][stop[n]];
solve :: int_search(stop, input_order, indomain_min, complete) minimize back;
