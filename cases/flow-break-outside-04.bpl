procedure main() { A: B: while (*) { break A; } }
