function f(): bool; axiom f(true);
