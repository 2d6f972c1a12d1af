procedure main() { while (*) invariant 1bv8; { } }
