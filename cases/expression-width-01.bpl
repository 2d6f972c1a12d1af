axiom 1bv40 ++ 1bv40 == 0bv1;
