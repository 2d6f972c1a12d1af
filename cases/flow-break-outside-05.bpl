procedure main() { A: assume true; while (*) { break A; } }
