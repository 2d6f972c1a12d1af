axiom true && true || false;
