function f(b: bool): bool; axiom f(a);
