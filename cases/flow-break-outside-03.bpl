procedure main() { while (*) { break A; } }
