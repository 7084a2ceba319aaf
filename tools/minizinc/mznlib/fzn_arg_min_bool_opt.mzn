include "arg_min.mzn";
% MiniZinc's arg_min.mzn names a function of this file, and doesn't include it.
include "arg_max.mzn";
predicate fzn_minimum_arg_bool_opt(array[int] of var opt bool: x, var int: i) =
  minimum_arg(array1d(index_set(x), [ it default 2 | it in x ]), i);
