procedure main() { goto A, B; A: goto B; B: goto A; }
