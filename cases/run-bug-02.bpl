var x, y: bool; procedure main() modifies x, y; { havoc y, x; assume y; assert x; }
