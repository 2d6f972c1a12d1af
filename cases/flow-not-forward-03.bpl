procedure main() { goto A; while (*) { A: } }
