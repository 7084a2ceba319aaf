include "fzn_regular_nfa_set_reif.mzn";
predicate fzn_regular_nfa_reif(array[int] of var int: x, int: Q, int: S, array[int, int] of set of int: d, int: q0, set of int: F,
                               var bool: b) =
  b <-> qecode_is_accepted(x, 1..Q, 1..S, d, q0, F);
