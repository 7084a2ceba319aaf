exists;
var 0..9: x;
var 0..9: y;
constraint int_lin_eq([2,1],[x,y],5);
goal;
constraint int_lt(x,y);
solve;
