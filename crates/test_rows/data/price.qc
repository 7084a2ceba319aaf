% One price for two customers. The first stays away where it is above 6, the second where it is above 4;
% where it is equal, either may happen. Is an income of 6 sure?
exists;
  var 0..10: price;
forall;
  var 0..1: buys1; var 0..1: buys2;
  % who buys pays at most 6, or 4; who stays away would pay at least as much
  constraint int_lin_le([1,10],[price,buys1],16);
  constraint int_lin_le([-1,-10],[price,buys1],-6);
  constraint int_lin_le([1,10],[price,buys2],14);
  constraint int_lin_le([-1,-10],[price,buys2],-4);
exists;
  var 0..10: pays1; var 0..10: pays2;
  constraint int_times(price,buys1,pays1);
  constraint int_times(price,buys2,pays2);
goal;
  constraint int_lin_le([-1,-1],[pays1,pays2],-6);
solve;
