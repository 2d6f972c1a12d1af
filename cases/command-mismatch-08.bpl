procedure main() { assume 1bv8; }
