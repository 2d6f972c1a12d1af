axiom f(a);
