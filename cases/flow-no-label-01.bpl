procedure main() { goto A; }
