% State 0 is where no word is accepted any more; so the states are determined by x.
predicate fzn_regular_set_reif(array[int] of var int: x, int: Q, set of int: S, array[int, int] of int: d, int: q0, set of int: F,
                               var bool: b) =
  let { int: m = min(index_set(x)); int: n = max(index_set(x)) + 1; int: l = min(S) - 1; set of int: T = l..max(S);
        array[0..Q, T] of int: e = array2d(0..Q, T, [ if q = 0 \/ not (s in S) then 0 else d[q, s] endif | q in 0..Q, s in T ]);
        array[m..n] of var 0..Q: a;
        constraint a[m] = q0;
        constraint forall(i in index_set(x))(a[i + 1] = e[a[i], if x[i] in S then x[i] else l endif]) }
  in b <-> (a[n] in F);
