procedure main() { while (*) { goto A; } while (*) { A: } }
