function f(): bool { true } axiom f(true);
