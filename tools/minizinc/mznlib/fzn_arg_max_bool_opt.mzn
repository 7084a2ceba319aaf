include "arg_max.mzn";
% Where `arg_min` is given optional Booleans, MiniZinc's file asks for the greatest one in place of the least. Nothing tells here which
% of both was asked, so neither is solved: the translator refuses this by its name.
predicate fzn_maximum_arg_bool_opt(array[int] of var opt bool: x, var int: i) =
  qecode_arg_min_or_arg_max_of_optional_booleans([ occurs(it) | it in x ], i);
predicate qecode_arg_min_or_arg_max_of_optional_booleans(array[int] of var bool: is_there, var int: i);
