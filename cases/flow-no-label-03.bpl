procedure main() { goto A, B; A: }
