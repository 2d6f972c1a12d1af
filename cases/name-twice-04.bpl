function f(): bool; function f(): bv8;
