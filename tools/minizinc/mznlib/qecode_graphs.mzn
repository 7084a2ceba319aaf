% Whether a part of a graph is connected, a tree, a path. All that is new is determined by the nodes and edges that are in the part,
% and by its ends: the nodes to which so many edges lead.

% The nodes to which at most so many edges of the part lead from those that it starts with.
function array[int] of var bool: qecode_reached(array[int] of int: from, array[int] of int: to, array[int] of var bool: start,
                                                array[int] of var bool: es, int: edges) =
  if edges <= 0 then start
  else let { array[int] of var bool: before = qecode_reached(from, to, start, es, edges - 1) }
       in array1d(index_set(start), [ before[n] \/ exists(e in index_set(es) where to[e] = n)(es[e] /\ before[from[e]])
                                    | n in index_set(start) ])
  endif;

% The nodes at which a walk of so many edges of the part ends that begins in those.
function array[int] of var bool: qecode_walked(array[int] of int: from, array[int] of int: to, array[int] of var bool: start,
                                               array[int] of var bool: es, int: edges) =
  if edges <= 0 then start
  else let { array[int] of var bool: before = qecode_walked(from, to, start, es, edges - 1) }
       in array1d(index_set(start), [ exists(e in index_set(es) where to[e] = n)(es[e] /\ before[from[e]]) | n in index_set(start) ])
  endif;

% All nodes of the part are reached, and its edges lead from nodes to nodes of it.
predicate qecode_spans(array[int] of int: from, array[int] of int: to, array[int] of var bool: start,
                       array[int] of var bool: ns, array[int] of var bool: es) =
  let { array[int] of var bool: reached = qecode_reached(from, to, start, es, length(ns) - 1) }
  in forall(e in index_set(es))((es[e] -> ns[from[e]]) /\ (es[e] -> ns[to[e]]))
     /\ forall(n in index_set(ns))(ns[n] -> reached[n]);
predicate qecode_spans_from(array[int] of int: from, array[int] of int: to, var int: root,
                            array[int] of var bool: ns, array[int] of var bool: es) =
  let { array[int] of var bool: start = array1d(index_set(ns), [ root = n /\ ns[n] | n in index_set(ns) ]) }
  in exists(start) /\ qecode_spans(from, to, start, ns, es);
% The same where edges lead both ways, and from the first node of the part.
predicate qecode_joins_from(array[int] of int: from, array[int] of int: to, var int: root,
                            array[int] of var bool: ns, array[int] of var bool: es) =
  qecode_spans_from(array1d(from) ++ array1d(to), array1d(to) ++ array1d(from), root, ns, array1d(es) ++ array1d(es));
predicate qecode_joins(array[int] of int: from, array[int] of int: to, array[int] of var bool: ns, array[int] of var bool: es) =
  let { array[int] of var bool: start = array1d(index_set(ns),
          [ ns[n] /\ not exists([ ns[k] | k in index_set(ns) where k < n ]) | n in index_set(ns) ]) }
  in exists(ns)
     /\ qecode_spans(array1d(from) ++ array1d(to), array1d(to) ++ array1d(from), start, ns, array1d(es) ++ array1d(es));
% A connected part with one edge less than nodes is a tree.
predicate qecode_has_edges_of_tree(array[int] of var bool: ns, array[int] of var bool: es) =
  sum(e in es)(bool2int(e)) = sum(n in ns)(bool2int(n)) - 1;
predicate qecode_is_tree_from(array[int] of int: from, array[int] of int: to, var int: root,
                              array[int] of var bool: ns, array[int] of var bool: es) =
  qecode_has_edges_of_tree(ns, es) /\ qecode_spans_from(from, to, root, ns, es);
predicate qecode_is_path(array[int] of int: from, array[int] of int: to, var int: s, var int: t,
                         array[int] of var bool: ns, array[int] of var bool: es) =
  exists(n in index_set(ns))(t = n /\ ns[n])
  /\ forall(n in index_set(ns))(
       ns[n] -> sum(e in index_set(es) where from[e] = n)(bool2int(es[e])) + sum(e in index_set(es) where to[e] = n)(bool2int(es[e]))
                + bool2int(s = n) + bool2int(t = n) = 2)
  /\ qecode_joins_from(from, to, s, ns, es);
