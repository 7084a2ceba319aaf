include "qecode_graphs.mzn";
predicate fzn_wst_reif(int: N, int: E, array[int] of int: from, array[int] of int: to, array[int] of int: w,
                       array[int] of var bool: es, var int: K, var bool: b) =
  b <-> (qecode_has_edges_of_tree([ true | n in 1..N ], es) /\ qecode_joins(from, to, [ true | n in 1..N ], es)
        /\ K = sum(e in 1..E)(w[e] * bool2int(es[e])));
