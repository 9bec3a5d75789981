% Gives three constraints that the solver takes as they are; the standard library takes them apart at this place.
predicate bool_clause_reif(array[int] of var bool: as, array[int] of var bool: bs, var bool: b);
predicate array_int_maximum(var int: m, array[int] of var int: x);
predicate array_int_minimum(var int: m, array[int] of var int: x);

% The standard library's file of this name, which this one stands for, also says these two: they are declared because other
% files of the library use them. A text with floats is refused in any case.
predicate array_float_maximum(var float: m, array[int] of var float: x);
predicate array_float_minimum(var float: m, array[int] of var float: x);
