procedure main() { while (1bv8) { } }
