% The numbers of y ascend, and each is there as often as in x.
predicate fzn_sort_reif(array[int] of var int: x, array[int] of var int: y, var bool: b) =
  b <-> (forall(i in min(index_set(y))..max(index_set(y)) - 1)(y[i] <= y[i + 1])
        /\ forall(v in dom_array(x) union dom_array(y))(sum(it in x)(bool2int(it = v)) = sum(it in y)(bool2int(it = v))));
