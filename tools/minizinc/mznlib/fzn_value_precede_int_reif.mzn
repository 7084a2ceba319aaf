% Each t has an s before it.
predicate fzn_value_precede_int_reif(int: s, int: t, array[int] of var int: x, var bool: b) =
  b <-> forall(i in index_set(x))(x[i] = t -> exists(j in min(index_set(x))..i - 1)(x[j] = s));
