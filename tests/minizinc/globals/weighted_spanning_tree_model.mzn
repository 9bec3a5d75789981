% A tree that joins all places, and its weight.
include "globals.mzn";
int: n;
int: edges = 2 * n - 3;
array[1..edges] of int: from = [ if e < n then e else e - n + 1 endif | e in 1..edges ];
array[1..edges] of int: to = [ if e < n then e + 1 else e - n + 3 endif | e in 1..edges ];
array[1..edges] of int: weight = [ 1 + e mod 3 | e in 1..edges ];
array[1..edges] of var bool: has_edge;
var 0..3 * n: weight_of;
constraint weighted_spanning_tree(n, edges, from, to, weight, has_edge, weight_of);
solve satisfy;
