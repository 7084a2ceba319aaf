include "value_precede.mzn";
predicate fzn_value_precede_chain_set_reif(array[int] of int: c, array[int] of var set of int: x, var bool: b) =
  b <-> forall(i in min(index_set(c)) + 1..max(index_set(c)))(value_precede(c[i - 1], c[i], x));
