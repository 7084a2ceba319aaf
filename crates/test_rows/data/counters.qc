% Seven counters. Two players take one or two in turn, and I begin. Can I take the last one?
exists; var 1..2: take1;
forall; var 1..2: reply1;
exists; var 1..2: take2;
forall; var 1..2: reply2;
exists; var 1..2: take3;
goal;
  constraint int_lin_eq([1,1,1,1,1],[take1,reply1,take2,reply2,take3],7);
solve;
