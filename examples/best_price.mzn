% One price for three customers. Elsewhere each would pay 6, 5 or 9. A customer buys here where that is cheaper; where
% both cost the same, the seller may hope. Which income is the best, summed over the customers?
include "qecode.mzn";
array[1..3] of int: elsewhere = [6, 5, 9];
var 0..10: price;
var 1..3: customer;
var 0..1: here;
constraint exists_scope(1, price);
constraint forall_scope(2, customer);
constraint exists_scope(3, here);
constraint wish_max_sum(1, 2, price * here);
constraint wish_min(3, price * here + elsewhere[customer] * (1 - here));
solve satisfy;
output ["price \(price)\n"];
