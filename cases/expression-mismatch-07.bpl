axiom true[1:0] == 0bv1;
