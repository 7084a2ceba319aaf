% Sets of integers by Booleans, one for each number that a set may have. It stands in place of MiniZinc's file of this name, which
% ends in an assertion where the index of an element may lie outside of its array, and reads arrays outside of their indices. That
% file has half-reified forms too. MiniZinc takes these in places where the reified form is meant, as in an index, so there are none.

% ---- The Booleans of a set, and the way back for the output, which MiniZinc asks for.

function var bool: set2bools_bit(var set of int: x, int: i) ::promise_total =
  if i in ub(x) then let { var bool: b } in b else false endif;
function array[int] of bool: set2bools(set of int: x) ::promise_total =
  if card(x) = 0 then [] else array1d(min(x)..max(x), [ i in x | i in min(x)..max(x) ]) endif;
function array[int] of var bool: set2bools(var set of int: x) ::promise_total =
  if is_fixed(x) then set2bools(fix(x)) elseif card(ub(x)) = 0 then []
  else let { set of int: places = min(ub(x))..max(ub(x));
             array[int] of var bool: b = array1d(places, [ set2bools_bit(x, i) | i in places ]);
             constraint (x = reverse_map_ab2si(b)) ::is_reverse_map }
       in b
  endif;
function var set of int: reverse_map_ab2si(array[int] of var bool: b) ::output_only;
function set of int: reverse_map_ab2si(array[int] of bool: b) ::promise_total = { i | i in index_set(b) where b[i] };
predicate mzn_reverse_map_var(var set of int: x) = let { array[int] of var bool: b = set2bools(x) } in true;

% The Boolean of i, which is false outside of the array; and whether there is a number above i.
function var bool: qecode_has(array[int] of var bool: b, int: i) = if i in index_set(b) then b[i] else false endif;
function var bool: qecode_has_above(array[int] of var bool: b, int: i) = exists([ b[j] | j in index_set(b) where j > i ]);

% ---- What holds of sets: one body for the plain and the reified form.

predicate qecode_set_eq(array[int] of var bool: x, array[int] of var bool: y) =
  forall(i in index_set(x) union index_set(y))(qecode_has(x, i) = qecode_has(y, i));
predicate qecode_set_subset(array[int] of var bool: x, array[int] of var bool: y) =
  forall(i in index_set(x))(x[i] -> qecode_has(y, i));
% Sets are in the order of their ascending lists. The least number that one set alone has decides: that set comes first, where the
% other one has a greater number.
predicate qecode_set_before(array[int] of var bool: x, array[int] of var bool: y, bool: if_equal) =
  let { set of int: places = index_set(x) union index_set(y) }
  in if card(places) = 0 then if_equal else qecode_set_before_from(min(places), max(places), x, y, if_equal) endif;
predicate qecode_set_before_from(int: i, int: last, array[int] of var bool: x, array[int] of var bool: y, bool: if_equal) =
  if i > last then if_equal
  else ((qecode_has(x, i) <-> qecode_has(y, i)) /\ qecode_set_before_from(i + 1, last, x, y, if_equal))
       \/ (qecode_has(x, i) /\ not qecode_has(y, i) /\ qecode_has_above(y, i))
       \/ (qecode_has(y, i) /\ not qecode_has(x, i) /\ not qecode_has_above(x, i))
  endif;

predicate set_eq(var set of int: x, var set of int: y) = qecode_set_eq(set2bools(x), set2bools(y));
predicate set_eq_reif(var set of int: x, var set of int: y, var bool: r) = r <-> qecode_set_eq(set2bools(x), set2bools(y));
predicate set_ne(var set of int: x, var set of int: y) = not qecode_set_eq(set2bools(x), set2bools(y));
predicate set_ne_reif(var set of int: x, var set of int: y, var bool: r) = r <-> not qecode_set_eq(set2bools(x), set2bools(y));
predicate set_le(var set of int: x, var set of int: y) = qecode_set_before(set2bools(x), set2bools(y), true);
predicate set_le_reif(var set of int: x, var set of int: y, var bool: r) = r <-> qecode_set_before(set2bools(x), set2bools(y), true);
predicate set_lt(var set of int: x, var set of int: y) = qecode_set_before(set2bools(x), set2bools(y), false);
predicate set_lt_reif(var set of int: x, var set of int: y, var bool: r) = r <-> qecode_set_before(set2bools(x), set2bools(y), false);
predicate set_subset(var set of int: x, var set of int: y) = qecode_set_subset(set2bools(x), set2bools(y));
predicate set_subset_reif(var set of int: x, var set of int: y, var bool: r) = r <-> qecode_set_subset(set2bools(x), set2bools(y));
predicate set_superset(var set of int: x, var set of int: y) = set_subset(y, x);
predicate set_superset_reif(var set of int: x, var set of int: y, var bool: r) = set_subset_reif(y, x, r);

predicate set_in(int: x, var set of int: y) = qecode_has(set2bools(y), x);
predicate set_in_reif(int: x, var set of int: y, var bool: r) = r <-> qecode_has(set2bools(y), x);
predicate set_in(var int: x, var set of int: y) = if card(ub(y)) = 0 then false else set2bools(y)[x] endif;
predicate set_in_reif(var int: x, var set of int: y, var bool: r) = if card(ub(y)) = 0 then not r else r <-> set2bools(y)[x] endif;

% ---- What sets come to.

predicate set_card(var set of int: x, var int: c) = sum(b in set2bools(x))(bool2int(b)) = c;
function var set of int: set_union(var set of int: x, var set of int: y) ::promise_total =
  let { array[int] of var bool: a = set2bools(x); array[int] of var bool: b = set2bools(y); var set of ub(x) union ub(y): z;
        constraint forall(i in ub(z))(set2bools(z)[i] = (qecode_has(a, i) \/ qecode_has(b, i))) }
  in z;
function var set of int: set_intersect(var set of int: x, var set of int: y) ::promise_total =
  let { array[int] of var bool: a = set2bools(x); array[int] of var bool: b = set2bools(y); var set of ub(x) intersect ub(y): z;
        constraint forall(i in ub(z))(set2bools(z)[i] = (a[i] /\ b[i])) }
  in z;
function var set of int: set_diff(var set of int: x, var set of int: y) ::promise_total =
  let { array[int] of var bool: a = set2bools(x); array[int] of var bool: b = set2bools(y); var set of ub(x) diff lb(y): z;
        constraint forall(i in ub(z))(set2bools(z)[i] = (a[i] /\ not qecode_has(b, i))) }
  in z;
function var set of int: set_symdiff(var set of int: x, var set of int: y) ::promise_total =
  let { array[int] of var bool: a = set2bools(x); array[int] of var bool: b = set2bools(y);
        var set of (ub(x) diff lb(y)) union (ub(y) diff lb(x)): z;
        constraint forall(i in ub(z))(set2bools(z)[i] = (qecode_has(a, i) xor qecode_has(b, i))) }
  in z;

% ---- A set out of an array. Where the index may lie outside, the reified form looks at a place inside.

predicate qecode_set_item(var int: i, array[int] of var set of int: sets, set of int: places, var set of int: z) =
  forall(k in ub(z) union array_union([ ub(sets[j]) | j in places ]))(
    qecode_has(set2bools(z), k)
    = array1d(min(places)..max(places),
              [ if j in places then qecode_has(set2bools(sets[j]), k) else false endif | j in min(places)..max(places) ])[i]);
function set of int: qecode_places(var int: i, array[int] of var set of int: sets) =
  if has_bounds(i) then index_set(sets) intersect dom(i) else index_set(sets) endif;

predicate qecode_set_element(var int: i, array[int] of var set of int: sets, var set of int: z) =
  let { set of int: places = qecode_places(i, sets) }
  in if card(places) = 0 then false else i in places /\ qecode_set_item(i, sets, places, z) endif;
predicate qecode_set_element_reif(var int: i, array[int] of var set of int: sets, var set of int: z, var bool: r) =
  let { set of int: places = qecode_places(i, sets) }
  in if card(places) = 0 then not r
     elseif has_bounds(i) /\ dom(i) subset places then r <-> qecode_set_item(i, sets, places, z)
     else let { array[1..1] of var places: inside = [ if i in places then i else min(places) endif ] }
          in r <-> (i in places /\ qecode_set_item(inside[1], sets, places, z))
     endif;
predicate array_var_set_element(var int: i, array[int] of var set of int: sets, var set of int: z) = qecode_set_element(i, sets, z);
predicate array_var_set_element_reif(var int: i, array[int] of var set of int: sets, var set of int: z, var bool: r) =
  qecode_set_element_reif(i, sets, z, r);
predicate array_set_element(var int: i, array[int] of set of int: sets, var set of int: z) = qecode_set_element(i, sets, z);
predicate array_set_element_reif(var int: i, array[int] of set of int: sets, var set of int: z, var bool: r) =
  qecode_set_element_reif(i, sets, z, r);

% ---- Advice for searches. Nothing is made of values to begin with.

annotation set_search(array[$T] of var set of int: x, ann: order, ann: choice, ann: how) =
  let { array[int] of var set of int: sets = array1d(x);
        ann: value = if choice == indomain_min then indomain_max elseif choice == indomain_max then indomain_min else choice endif }
  in seq_search([ bool_search(set2bools(s), order, value, how) | s in sets ]);
annotation warm_start(array[int] of var set of int: x, array[int] of set of int: v) = warm_start_array([]);
