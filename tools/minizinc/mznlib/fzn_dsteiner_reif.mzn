include "qecode_graphs.mzn";
predicate fzn_dsteiner_reif(int: N, int: E, array[int] of int: from, array[int] of int: to, array[int] of int: w,
                            var int: r, array[int] of var bool: ns, array[int] of var bool: es, var int: K, var bool: b) =
  b <-> (qecode_is_tree_from(from, to, r, ns, es) /\ K = sum(e in 1..E)(w[e] * bool2int(es[e])));
