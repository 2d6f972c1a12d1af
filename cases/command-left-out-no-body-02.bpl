procedure p(); procedure main() { call p(); }
