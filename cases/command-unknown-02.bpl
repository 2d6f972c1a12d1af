procedure main() { call p(); }
