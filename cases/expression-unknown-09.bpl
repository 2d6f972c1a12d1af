axiom 1bv8 && a;
