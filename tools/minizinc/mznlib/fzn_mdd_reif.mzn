% The nodes that x leads to from the first one are determined by x; 0 is the end.
predicate fzn_mdd_reif(array[int] of var int: x, int: N, array[int] of int: level, int: E, array[int] of int: from,
                       array[int] of set of int: label, array[int] of int: to, var bool: b) =
  let { array[0..N] of var bool: is_met;
        constraint is_met[1];
        constraint forall(n in 0..N where n != 1)(
          is_met[n] = exists(e in 1..E where to[e] = n)(is_met[from[e]] /\ x[level[from[e]]] in label[e])) }
  in b <-> is_met[0];
