procedure main() { assert 1bv8 ++ 2bv8 == 258bv16; }
