% A first job takes 2 hours, and may be delayed by up to 2. When I know that delay I place the second job, of 3 hours.
% It may be delayed too, but both delays together are at most 2 hours. By which hour can I be done in the worst case?
exists minimize worst;
  var 0..3: start1;
forall;
  var 0..2: delay1;
  aggregate worst = greatest(latest) else 0;
exists minimize latest;
  var 0..8: start2;
  var 0..20: latest;
  % not before the first job is done: start1 + 2 + delay1 <= start2
  constraint int_lin_le([1,1,-1],[start1,delay1,start2],-2);
  % the second delay is what is left of the two hours at most: latest = start2 + 3 + 2 - delay1
  constraint int_lin_eq([1,-1,-1],[start2,delay1,latest],-5);
goal;
solve;
