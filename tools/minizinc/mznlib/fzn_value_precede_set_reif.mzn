% Each set with t and without s has one with s and without t before it.
predicate fzn_value_precede_set_reif(int: s, int: t, array[int] of var set of int: x, var bool: b) =
  b <-> forall(i in index_set(x))(
          t in x[i] /\ not (s in x[i]) -> exists(j in min(index_set(x))..i - 1)(s in x[j] /\ not (t in x[j])));
