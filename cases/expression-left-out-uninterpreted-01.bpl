function f(b: bv8): bool; axiom f(true);
