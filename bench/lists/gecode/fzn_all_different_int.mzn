% Gives Gecode's own constraint under the name by which MiniZinc 2.6 asks for it.
predicate all_different_int(array[int] of var int: x);
predicate fzn_all_different_int(array[int] of var int: x) = all_different_int(x);
