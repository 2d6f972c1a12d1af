axiom b;
