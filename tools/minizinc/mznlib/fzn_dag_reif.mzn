include "qecode_graphs.mzn";
predicate fzn_dag_reif(array[int] of $$N: from, array[int] of $$N: to, array[$$N] of var bool: ns, array[int] of var bool: es,
                       var bool: b) =
  let { array[int] of var bool: start = [ true | n in index_set(ns) ];
        array[int] of var bool: ends = qecode_walked(from, to, array1d(index_set(ns), start), es, length(ns)) }
  in b <-> (forall(e in index_set(es))(es[e] -> ns[to[e]]) /\ not exists(ends));
