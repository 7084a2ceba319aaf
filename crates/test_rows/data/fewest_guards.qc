% Three gates, an attacker who sees the guards and attacks at most two gates, and a reserve of one that moves then.
% How many guards are enough?
exists minimize guards;
  var 0..3: guards;
  var 0..1: guard1; var 0..1: guard2; var 0..1: guard3;
  constraint int_lin_eq([1,1,1,-1],[guard1,guard2,guard3,guards],0);
forall;
  var 0..1: attack1; var 0..1: attack2; var 0..1: attack3;
  constraint int_lin_le([1,1,1],[attack1,attack2,attack3],2);
exists;
  var 0..1: reserve1; var 0..1: reserve2; var 0..1: reserve3;
  constraint int_lin_le([1,1,1],[reserve1,reserve2,reserve3],1);
goal;
  % an attack is at most a guard plus the reserve
  constraint int_lin_le([1,-1,-1],[attack1,guard1,reserve1],0);
  constraint int_lin_le([1,-1,-1],[attack2,guard2,reserve2],0);
  constraint int_lin_le([1,-1,-1],[attack3,guard3,reserve3],0);
solve;
