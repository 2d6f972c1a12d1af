procedure p(b: bool) { } procedure main() { call p(); }
