% Three gates. I post at most two guards. An attacker who sees them then attacks at most two gates.
% Then I move a reserve of one. Can I post the guards so that every attacked gate is held?
include "qecode.mzn";
int: n = 3;
array[1..n] of var 0..1: guard;
array[1..n] of var 0..1: attack;
array[1..n] of var 0..1: reserve;
constraint exists_scope(1, guard);
constraint forall_scope(2, attack);
constraint exists_scope(3, reserve);
constraint rule(1, sum(guard) <= 2);
constraint rule(2, sum(attack) <= 2);
constraint rule(3, sum(reserve) <= 1);
constraint goal(forall(i in 1..n)(attack[i] <= guard[i] + reserve[i]));
solve satisfy;
output ["guards \(guard), against \(attack) the reserve \(reserve)\n"];
