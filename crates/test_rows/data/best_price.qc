% One price for three customers. Elsewhere each would pay 6, 5 or 9. A customer buys here where that is cheaper; where
% both cost the same, the seller may hope. Which income is the best, summed over the customers?
exists maximize total;
  var 0..10: price;
forall;
  var 1..3: customer;
  aggregate total = sum(income);
exists minimize cost;
  var 0..1: here; var 0..1: there;
  var 5..9: elsewhere; var 0..10: income; var 0..9: other; var 0..19: cost;
  constraint int_plus(here,there,1);
  constraint array_int_element(customer,[6,5,9],elsewhere);
  constraint int_times(price,here,income);
  constraint int_times(elsewhere,there,other);
  constraint int_plus(income,other,cost);
goal;
solve;
