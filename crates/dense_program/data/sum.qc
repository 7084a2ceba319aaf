exists; var 0..2: x;
forall; var 0..2: y;
exists; var 0..1: z;
goal; constraint int_lin_eq([1,1,-1],[x,z,y],0); solve;
