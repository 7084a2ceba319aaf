% A first job takes 2 hours, and may be delayed by up to 2. When I know that delay I place the second job, of 3 hours.
% It may be delayed too, but both delays together are at most 2 hours. By which hour can I be done in the worst case?
include "qecode.mzn";
var 0..3: start1;
var 0..2: delay1;
var 0..8: start2;
var int: latest = start2 + 3 + 2 - delay1;
constraint exists_scope(1, start1);
constraint forall_scope(2, delay1);
constraint exists_scope(3, start2);
constraint rule(3, start1 + 2 + delay1 <= start2);
constraint wish_min_greatest(1, 2, latest, 0);
constraint wish_min(3, latest);
solve satisfy;
output ["start \(start1); after a delay of \(delay1) the second job at \(start2), done by \(latest)\n"];
