axiom 1bv8 ++ true == 0bv1;
