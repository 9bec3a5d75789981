% A way from the first place to the last.
include "globals.mzn";
int: n;
int: edges = 2 * n - 3;
array[1..edges] of int: from = [ if e < n then e else e - n + 1 endif | e in 1..edges ];
array[1..edges] of int: to = [ if e < n then e + 1 else e - n + 3 endif | e in 1..edges ];
array[1..n] of var bool: has_node;
array[1..edges] of var bool: has_edge;
constraint path(n, edges, from, to, 1, n, has_node, has_edge);
solve satisfy;
