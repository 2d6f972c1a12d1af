axiom 1bv8[9:0] == 0bv9;
