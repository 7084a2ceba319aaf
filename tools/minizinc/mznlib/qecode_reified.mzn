% Whether a builtin holds, where the standard library has it plainly alone: without these MiniZinc refuses the call in a reified
% place, or ends by an assertion of its own. A function that has no value there, as a quotient by 0, equals nothing.
predicate int_plus_reif(var int: a, var int: b, var int: c, var bool: r) = r <-> a + b = c;
predicate int_times_reif(var int: a, var int: b, var int: c, var bool: r) = r <-> a * b = c;
predicate int_div_reif(var int: a, var int: b, var int: c, var bool: r) = r <-> a div b = c;
predicate int_mod_reif(var int: a, var int: b, var int: c, var bool: r) = r <-> a mod b = c;
predicate int_abs_reif(var int: a, var int: b, var bool: r) = r <-> abs(a) = b;
predicate int_max_reif(var int: a, var int: b, var int: c, var bool: r) = r <-> max(a, b) = c;
predicate int_min_reif(var int: a, var int: b, var int: c, var bool: r) = r <-> min(a, b) = c;
predicate int_pow_reif(var int: x, var int: y, var int: z, var bool: r) = r <-> pow(x, y) = z;
predicate int_pow_fixed_reif(var int: x, int: y, var int: z, var bool: r) = r <-> pow(x, y) = z;

predicate bool2int_reif(var bool: a, var int: b, var bool: r) = r <-> b = bool2int(a);
predicate bool_and_reif(var bool: a, var bool: b, var bool: c, var bool: r) = r <-> (c <-> a /\ b);
predicate bool_or_reif(var bool: a, var bool: b, var bool: c, var bool: r) = r <-> (c <-> a \/ b);
predicate bool_xor_reif(var bool: a, var bool: b, var bool: c, var bool: r) = r <-> (c <-> (a xor b));
predicate array_bool_and_reif(array[int] of var bool: as, var bool: c, var bool: r) = r <-> (c <-> forall(as));
predicate array_bool_or_reif(array[int] of var bool: as, var bool: c, var bool: r) = r <-> (c <-> exists(as));

% An element's array is numbered from 1 here, as FlatZinc has it.
predicate array_int_element_reif(var int: i, array[int] of int: as, var int: c, var bool: r) = r <-> array1d(as)[i] = c;
predicate array_bool_element_reif(var int: i, array[int] of bool: as, var bool: c, var bool: r) =
  r <-> (i in 1..length(as) /\ (c <-> array1d(as)[i]));
predicate array_var_int_element_reif(var int: i, array[int] of var int: as, var int: c, var bool: r) = r <-> array1d(as)[i] = c;
predicate array_var_bool_element_reif(var int: i, array[int] of var bool: as, var bool: c, var bool: r) =
  r <-> (i in 1..length(as) /\ (c <-> array1d(as)[i]));
predicate set_union_reif(var set of int: x, var set of int: y, var set of int: z, var bool: r) = r <-> z = x union y;
predicate set_intersect_reif(var set of int: x, var set of int: y, var set of int: z, var bool: r) = r <-> z = x intersect y;
predicate set_diff_reif(var set of int: x, var set of int: y, var set of int: z, var bool: r) = r <-> z = x diff y;
predicate set_symdiff_reif(var set of int: x, var set of int: y, var set of int: z, var bool: r) = r <-> z = x symdiff y;

% Floats are left as they are, so that the translator refuses their variables by name.
predicate float_abs_reif(var float: a, var float: b, var bool: r);
predicate float_acos_reif(var float: a, var float: b, var bool: r);
predicate float_acosh_reif(var float: a, var float: b, var bool: r);
predicate float_asin_reif(var float: a, var float: b, var bool: r);
predicate float_asinh_reif(var float: a, var float: b, var bool: r);
predicate float_atan_reif(var float: a, var float: b, var bool: r);
predicate float_atanh_reif(var float: a, var float: b, var bool: r);
predicate float_cos_reif(var float: a, var float: b, var bool: r);
predicate float_cosh_reif(var float: a, var float: b, var bool: r);
predicate float_exp_reif(var float: a, var float: b, var bool: r);
predicate float_ln_reif(var float: a, var float: b, var bool: r);
predicate float_log10_reif(var float: a, var float: b, var bool: r);
predicate float_log2_reif(var float: a, var float: b, var bool: r);
predicate float_sin_reif(var float: a, var float: b, var bool: r);
predicate float_sinh_reif(var float: a, var float: b, var bool: r);
predicate float_sqrt_reif(var float: a, var float: b, var bool: r);
predicate float_tan_reif(var float: a, var float: b, var bool: r);
predicate float_tanh_reif(var float: a, var float: b, var bool: r);
predicate float_div_reif(var float: a, var float: b, var float: c, var bool: r);
predicate float_max_reif(var float: a, var float: b, var float: c, var bool: r);
predicate float_min_reif(var float: a, var float: b, var float: c, var bool: r);
predicate float_plus_reif(var float: a, var float: b, var float: c, var bool: r);
predicate float_pow_reif(var float: a, var float: b, var float: c, var bool: r);
predicate float_times_reif(var float: a, var float: b, var float: c, var bool: r);
predicate int2float(var int: x, var float: y) = qecode_int2float(x, y);
predicate qecode_int2float(var int: x, var float: y);
predicate qecode_int2float_reif(var int: x, var float: y, var bool: r);
predicate array_float_element_reif(var int: i, array[int] of float: as, var float: c, var bool: r);
predicate array_var_float_element_reif(var int: i, array[int] of var float: as, var float: c, var bool: r);
predicate array_float_maximum_reif(var float: m, array[int] of var float: x, var bool: r);
predicate array_float_maximum_reif(var int: m, array[int] of var int: x, var bool: r);
predicate array_float_minimum_reif(var float: m, array[int] of var float: x, var bool: r);
predicate array_float_minimum_reif(var int: m, array[int] of var int: x, var bool: r);
