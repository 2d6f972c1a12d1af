procedure main() { if (*) { } }
