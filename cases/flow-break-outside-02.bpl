procedure main() { if (*) { break; } }
