var a, b: bool; procedure main() modifies a, b; { a, b := b, a; assert a ==> b; }
