include "qecode_graphs.mzn";
predicate fzn_dreachable_reif(array[int] of $$N: from, array[int] of $$N: to, var $$N: r, array[$$N] of var bool: ns,
                              array[int] of var bool: es, var bool: b) =
  b <-> qecode_spans_from(from, to, r, ns, es);
