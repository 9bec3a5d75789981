% The solver's own constraints on lists: no two are equal; and at no time do tasks use more than a limit. Each takes a list of
% at most 256 entries, and narrows bounds alone.
predicate pccp_all_different(array[int] of var int: xs);
predicate pccp_cumulative(array[int] of var int: s, array[int] of int: d, array[int] of int: r, int: b);
