% Everything new is determined by x: the walk begins in the first place that doesn't lead to itself, and all such places are on it.
predicate fzn_subcircuit_reif(array[int] of var int: x, var bool: b) =
  let { set of int: S = index_set(x); int: l = min(S); int: u = max(S); int: n = card(S);
        array[S] of var S: y = [ if x[i] in S then x[i] else l endif | i in S ];
        var 0..n: moved = sum(i in S)(bool2int(y[i] != i));
        array[1..n] of var S: p; constraint p[1] = min([ i + (u - i) * bool2int(y[i] = i) | i in S ]);
        constraint forall(k in 1..n - 1)(p[k + 1] = y[p[k]]) }
  in b <-> (forall(i in S)(x[i] in S) /\ qecode_all_different_int(y) /\ forall(k in 2..n)(k <= moved -> p[k] != p[1]));
