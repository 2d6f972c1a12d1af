axiom true[true];
