/* Quantified games in MiniZinc, for qecode.

   Scopes are numbered 1, 2, .. in the order in which they choose. Who chooses which variables, and when:

       var 0..3: price;
       array[1..3] of var 0..1: attack;
       constraint exists_scope(1, price);       % the player
       constraint forall_scope(2, attack);      % the opponent

   What the owner of scope k keeps to is a rule of k; what the player has to reach at the end is the goal:

       constraint rule(2, sum(attack) <= 2);
       constraint goal(forall(i in 1..3)(attack[i] <= guard[i]));

   All constraints stand in rules or in the goal, never bare: MiniZinc takes a bare constraint as true of everybody's
   variables, narrows domains and makes variables equal by it. Inside of rule(..) and goal(..) it can't, for there it doesn't
   know that they hold. Flatten games with -g, or with `qecode-mzn`; without it they are refused.

   A variable without a scope isn't chosen by anybody; it has to be determined by others (let variables, sums, elements).
*/
predicate qc_chosen_int(int: k, int: kind, array[int] of var int: xs);
predicate qc_chosen_bool(int: k, int: kind, array[int] of var bool: xs);
predicate exists_scope(int: k, var int: x) = qc_chosen_int(k, 1, [x]);
predicate exists_scope(int: k, var bool: x) = qc_chosen_bool(k, 1, [x]);
predicate exists_scope(int: k, array[$T] of var int: xs) = qc_chosen_int(k, 1, array1d(xs));
predicate exists_scope(int: k, array[$T] of var bool: xs) = qc_chosen_bool(k, 1, array1d(xs));
predicate forall_scope(int: k, var int: x) = qc_chosen_int(k, 0, [x]);
predicate forall_scope(int: k, var bool: x) = qc_chosen_bool(k, 0, [x]);
predicate forall_scope(int: k, array[$T] of var int: xs) = qc_chosen_int(k, 0, array1d(xs));
predicate forall_scope(int: k, array[$T] of var bool: xs) = qc_chosen_bool(k, 0, array1d(xs));
% A set is chosen element by element.
predicate exists_scope(int: k, var set of int: s) = qc_chosen_bool(k, 1, qc_bits(s));
predicate forall_scope(int: k, var set of int: s) = qc_chosen_bool(k, 0, qc_bits(s));
predicate exists_scope(int: k, array[$T] of var set of int: xs) = forall(s in array1d(xs))(exists_scope(k, s));
predicate forall_scope(int: k, array[$T] of var set of int: xs) = forall(s in array1d(xs))(forall_scope(k, s));
% Of what is optional it is chosen whether it is there, and its value, which is 0 or false where it isn't. So an optional integer that
% can't be 0 is chosen as its number alone.
predicate qc_chosen_opt_int(int: k, int: kind, var bool: is_there, var int: x, int: absent);
predicate qc_chosen_opt_bool(int: k, int: kind, var bool: is_there, var bool: x);
predicate exists_scope(int: k, var opt int: x) = qc_choose(k, 1, x);
predicate exists_scope(int: k, var opt bool: x) = qc_choose(k, 1, x);
predicate exists_scope(int: k, array[$T] of var opt int: xs) = forall(x in array1d(xs))(qc_choose(k, 1, x));
predicate exists_scope(int: k, array[$T] of var opt bool: xs) = forall(x in array1d(xs))(qc_choose(k, 1, x));
predicate forall_scope(int: k, var opt int: x) = qc_choose(k, 0, x);
predicate forall_scope(int: k, var opt bool: x) = qc_choose(k, 0, x);
predicate forall_scope(int: k, array[$T] of var opt int: xs) = forall(x in array1d(xs))(qc_choose(k, 0, x));
predicate forall_scope(int: k, array[$T] of var opt bool: xs) = forall(x in array1d(xs))(qc_choose(k, 0, x));
predicate qc_choose(int: k, int: kind, var opt bool: x) = qc_chosen_opt_bool(k, kind, occurs(x), deopt(x));
predicate qc_choose(int: k, int: kind, var opt int: x) =
  if had_zero(x) then qc_chosen_opt_int(k, kind, occurs(x), deopt(x), if 0 in dom(deopt(x)) then 0 else lb(deopt(x)) endif)
  else qc_chosen_int(k, kind, [deopt(x)])
  endif;
function array[int] of var bool: qc_bits(var set of int: s) = [ set2bools_bit(s, i) | i in ub(s) ];

predicate qc_rule(int: k, var bool: b);
predicate qc_goal(var bool: b);
predicate qc_scope(int: k, int: kind);
predicate qc_wish(int: k, int: sense, var int: x);
predicate qc_fold_wish(int: k, int: sense, int: fold, int: over, var int: x, int: otherwise);

predicate rule(int: k, var bool: b) = qc_rule(k, b);
predicate goal(var bool: b) = qc_goal(b);

% A scope without variables of its own.
predicate exists_here(int: k) = qc_scope(k, 1);
predicate forall_here(int: k) = qc_scope(k, 0);

% What the owner of scope k wishes: x, or the sum, the least or the greatest x over what the opponent may do in scope `over`.
predicate wish_min(int: k, var int: x) = qc_wish(k, 0, x);
predicate wish_max(int: k, var int: x) = qc_wish(k, 1, x);
predicate wish_min_sum(int: k, int: over, var int: x) = qc_fold_wish(k, 0, 0, over, x, 0);
predicate wish_max_sum(int: k, int: over, var int: x) = qc_fold_wish(k, 1, 0, over, x, 0);
predicate wish_min_least(int: k, int: over, var int: x, int: otherwise) = qc_fold_wish(k, 0, 1, over, x, otherwise);
predicate wish_max_least(int: k, int: over, var int: x, int: otherwise) = qc_fold_wish(k, 1, 1, over, x, otherwise);
predicate wish_min_greatest(int: k, int: over, var int: x, int: otherwise) = qc_fold_wish(k, 0, 2, over, x, otherwise);
predicate wish_max_greatest(int: k, int: over, var int: x, int: otherwise) = qc_fold_wish(k, 1, 2, over, x, otherwise);

% The canary: with -g this stays a constraint, without it the domain is narrowed.
var 0..1: qc_canary :: no_output;
constraint qc_canary <= 0;
