predicate fzn_seq_precede_chain_int_reif(array[int] of var int: x, var bool: b) =
  b <-> forall(i in index_set(x))(x[i] <= 1 \/ exists(j in min(index_set(x))..i - 1)(x[j] = x[i] - 1));
