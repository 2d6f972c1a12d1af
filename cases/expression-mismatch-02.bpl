axiom 1bv8 == 1bv9;
