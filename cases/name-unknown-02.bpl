axiom a; procedure p(); modifies b;
