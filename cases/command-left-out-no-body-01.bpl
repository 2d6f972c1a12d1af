procedure p(b: bool); procedure main() { call p(1bv8); }
