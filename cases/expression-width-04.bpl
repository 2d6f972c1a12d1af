axiom 1bv8[3:3] == 0bv1;
