% State 0 is where no word is accepted any more, and costs nothing; so states and costs are determined by x.
predicate fzn_cost_regular_reif(array[int] of var int: x, int: Q, int: S, array[int, int] of int: d, int: q0, set of int: F,
                                array[int, int] of int: c, var int: C, var bool: b) =
  let { int: m = min(index_set(x)); int: n = max(index_set(x)) + 1;
        array[0..Q, 0..S] of int: e = array2d(0..Q, 0..S, [ if q = 0 \/ s = 0 then 0 else d[q, s] endif | q in 0..Q, s in 0..S ]);
        array[0..Q, 0..S] of int: f = array2d(0..Q, 0..S, [ if q = 0 \/ s = 0 then 0 else c[q, s] endif | q in 0..Q, s in 0..S ]);
        array[m..n - 1] of var 0..S: y = [ if x[i] in 1..S then x[i] else 0 endif | i in index_set(x) ];
        array[m..n] of var 0..Q: a;
        constraint a[m] = q0;
        constraint forall(i in index_set(x))(a[i + 1] = e[a[i], y[i]]) }
  in b <-> (a[n] in F /\ C = sum(i in index_set(x))(f[a[i], y[i]]));
