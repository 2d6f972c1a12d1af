procedure main() { var x: bool; assert x || !x; assert x <==> x; assert x; assert false; }
