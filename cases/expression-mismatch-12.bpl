function f(): bool { 1bv8 }
