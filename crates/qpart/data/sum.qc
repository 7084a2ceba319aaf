% the best x is 1, and it isn't in the piece
exists minimize x; var 0..4: x;
forall; var 0..2: y;
goal; constraint int_lin_le([1,-2],[y,x],0);
solve;
