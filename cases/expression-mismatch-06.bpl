axiom true && 1bv8 && 2bv8;
