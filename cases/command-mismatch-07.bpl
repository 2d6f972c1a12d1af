procedure main() { assert 1bv8; }
