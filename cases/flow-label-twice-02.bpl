procedure main() { goto A; A: A: }
