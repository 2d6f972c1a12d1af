procedure main() { }
