procedure main() { break; goto A; }
