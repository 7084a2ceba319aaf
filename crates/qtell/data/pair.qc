exists; var 0..2: x; var 0..1: y; constraint int_ne(x,y);
goal;
solve;
