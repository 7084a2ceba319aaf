include "qecode_graphs.mzn";
predicate fzn_dtree_reif(int: N, int: E, array[int] of int: from, array[int] of int: to, var int: r,
                         array[int] of var bool: ns, array[int] of var bool: es, var bool: b) =
  b <-> qecode_is_tree_from(from, to, r, ns, es);
