axiom f(true);
