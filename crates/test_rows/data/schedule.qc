% A first job takes 2 hours and starts by hour 3. It may be delayed by up to 2 hours. I place the second
% job, of 3 hours, when I know that delay. It may be delayed too, but both delays together are at most 2 hours.
% Can I be done by hour 8, whatever is delayed?
exists;
  var 0..3: start1;
forall;
  var 0..2: delay1;
exists;
  var 0..8: start2;
  % not before the first job is done: start1 + 2 + delay1 <= start2
  constraint int_lin_le([1,1,-1],[start1,delay1,start2],-2);
forall;
  var 0..2: delay2;
  constraint int_lin_le([1,1],[delay1,delay2],2);
goal;
  % start2 + 3 + delay2 <= 8
  constraint int_lin_le([1,1],[start2,delay2],5);
solve;
