procedure p(a: bv8) { call p(a); } procedure main() { }
