function f(): bool { f() } axiom a;
