axiom 1bv40 ++ 1bv40 ++ true == 0bv1;
