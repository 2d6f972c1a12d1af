function f(): bool { true } axiom f(a);
