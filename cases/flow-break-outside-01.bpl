procedure main() { break; }
