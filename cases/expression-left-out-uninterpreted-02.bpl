function f(): bool; axiom f();
