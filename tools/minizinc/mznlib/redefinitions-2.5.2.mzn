% Elements of arrays with two indices, as MiniZinc 2.5.2 lets a solver redefine them: none where an index is outside of its range.
% MiniZinc's own count on into the next row there.
predicate array_var_int_element2d_nonshifted(var int: i, var int: j, array[int, int] of var int: x, var int: c) =
  i in index_set_1of2(x) /\ j in index_set_2of2(x)
  /\ array_var_int_element_nonshifted(qecode_flat(i, j, index_set_1of2(x), index_set_2of2(x))::domain, array1d(x), c);
predicate array_var_bool_element2d_nonshifted(var int: i, var int: j, array[int, int] of var bool: x, var bool: c) =
  i in index_set_1of2(x) /\ j in index_set_2of2(x)
  /\ array_var_bool_element_nonshifted(qecode_flat(i, j, index_set_1of2(x), index_set_2of2(x))::domain, array1d(x), c);
predicate array_var_float_element2d_nonshifted(var int: i, var int: j, array[int, int] of var float: x, var float: c) =
  i in index_set_1of2(x) /\ j in index_set_2of2(x)
  /\ array_var_float_element_nonshifted(qecode_flat(i, j, index_set_1of2(x), index_set_2of2(x))::domain, array1d(x), c);
predicate array_var_set_element2d_nonshifted(var int: i, var int: j, array[int, int] of var set of int: x, var set of int: c) =
  i in index_set_1of2(x) /\ j in index_set_2of2(x)
  /\ array_var_set_element_nonshifted(qecode_flat(i, j, index_set_1of2(x), index_set_2of2(x))::domain, array1d(x), c);
function var int: qecode_flat(var int: i, var int: j, set of int: rows, set of int: columns) =
  i * card(columns) + j - (min(rows) * card(columns) + min(columns) - 1);
