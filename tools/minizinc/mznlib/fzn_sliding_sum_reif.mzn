predicate fzn_sliding_sum_reif(int: low, int: up, int: seq, array[int] of var int: vs, var bool: b) =
  b <-> forall(i in min(index_set(vs))..max(index_set(vs)) - seq + 1)(
    low <= sum(j in i..i + seq - 1)(vs[j]) /\ sum(j in i..i + seq - 1)(vs[j]) <= up);
