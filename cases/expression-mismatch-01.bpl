function f(b: bv8): bool { true } axiom f(true);
