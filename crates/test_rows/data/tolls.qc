% A leader sets three tolls. Each of three customers then takes its cheapest route, by one of the tolls or by a free
% road, and pays the toll for each of its cars. Which tolls bring most?
exists maximize total;
  var 0..10: t1; var 0..10: t2; var 0..10: t3;
forall;
  var 1..3: k;
  aggregate total = sum(income);
exists minimize cost;
  var 1..4: a; var 1..12: i; var 0..20: base; var 0..10: toll;
  var 0..30: cost; var 1..3: dem; var 0..30: income;
  % the route a of customer k is row 4k - 4 + a of the table of base costs
  constraint int_lin_eq([4,1,-1],[k,a,i],4);
  constraint array_int_element(i,[3,6,20,10,6,3,20,9,20,4,5,7],base);
  constraint array_var_int_element(a,[t1,t2,t3,0],toll);
  constraint int_plus(base,toll,cost);
  constraint array_int_element(k,[2,1,3],dem);
  constraint int_times(dem,toll,income);
goal;
solve;
