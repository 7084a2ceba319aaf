include "qecode_graphs.mzn";
predicate fzn_dconnected_reif(array[int] of $$N: from, array[int] of $$N: to, array[$$N] of var bool: ns,
                              array[int] of var bool: es, var bool: b) =
  b <-> exists(r in index_set(ns))(qecode_spans_from(from, to, r, ns, es));
