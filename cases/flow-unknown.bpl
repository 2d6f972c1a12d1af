procedure main() { goto A; assert a; }
