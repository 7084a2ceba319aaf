include "qecode_graphs.mzn";
predicate fzn_path_reif(array[int] of $$N: from, array[int] of $$N: to, var $$N: s, var $$N: t, array[$$N] of var bool: ns,
                        array[int] of var bool: es, var bool: b) =
  b <-> qecode_is_path(from, to, s, t, ns, es);
