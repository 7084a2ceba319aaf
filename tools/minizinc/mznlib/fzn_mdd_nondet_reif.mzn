include "fzn_mdd_reif.mzn";
predicate fzn_mdd_nondet_reif(array[int] of var int: x, int: N, array[int] of int: level, int: E, array[int] of int: from,
                              array[int] of set of int: label, array[int] of int: to, var bool: b) =
  fzn_mdd_reif(x, N, level, E, from, label, to, b);
