predicate fzn_regular_nfa_reif(array[int] of var int: x, int: Q, set of int: S, array[int, int] of set of int: d, int: q0,
                               set of int: F, var bool: b) =
  b <-> qecode_is_accepted(x, 1..Q, S, d, q0, F);

% Whether a final state is among those that the word may come to; which these are is determined by x.
predicate qecode_is_accepted(array[int] of var int: x, set of int: Q, set of int: S, array[int, int] of set of int: d, int: q0,
                             set of int: F) =
  let { array[int] of var bool: states = qecode_states(array1d(x), length(x), Q, S, d, q0) } in exists(q in F)(states[q]);
function array[int] of var bool: qecode_states(array[int] of var int: x, int: read, set of int: Q, set of int: S,
                                               array[int, int] of set of int: d, int: q0) =
  if read = 0 then [ q = q0 | q in Q ]
  else let { array[int] of var bool: before = qecode_states(x, read - 1, Q, S, d, q0) }
       in [ exists(p in Q)(before[p] /\ x[read] in { s | s in S where q in d[p, s] }) | q in Q ]
  endif;
