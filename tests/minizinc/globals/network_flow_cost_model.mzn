% What flows on each way, and what that costs.
include "globals.mzn";
int: n;
int: edges = 2 * n - 3;
array[1..edges] of int: from = [ if e < n then e else e - n + 1 endif | e in 1..edges ];
array[1..edges] of int: to = [ if e < n then e + 1 else e - n + 3 endif | e in 1..edges ];
array[1..edges] of int: weight = [ 1 + e mod 3 | e in 1..edges ];
array[1..edges] of var 0..2: flow;
var 0..6 * n: cost;
constraint network_flow_cost(array2d(1..edges, 1..2, [ [from[e], to[e]][k] | e in 1..edges, k in 1..2 ]), [ if v = 1 then 2 elseif v = n then -2 else 0 endif | v in 1..n ], weight, flow, cost);
solve satisfy;
