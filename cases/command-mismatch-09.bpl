procedure main() { if (1bv8) { } }
