axiom 1bv8;
