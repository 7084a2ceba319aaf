include "qecode_graphs.mzn";
predicate fzn_steiner_reif(int: N, int: E, array[int] of int: from, array[int] of int: to, array[int] of int: w,
                           array[int] of var bool: ns, array[int] of var bool: es, var int: K, var bool: b) =
  b <-> (qecode_has_edges_of_tree(ns, es) /\ qecode_joins(from, to, ns, es) /\ K = sum(e in 1..E)(w[e] * bool2int(es[e])));
