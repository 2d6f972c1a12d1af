axiom true; procedure main() { }
