include "qecode_graphs.mzn";
predicate fzn_connected_reif(array[int] of $$N: from, array[int] of $$N: to, array[$$N] of var bool: ns,
                             array[int] of var bool: es, var bool: b) =
  b <-> qecode_joins(from, to, ns, es);
