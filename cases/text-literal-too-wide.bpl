axiom 7bv65 == 7bv65;
