procedure p(b: bool) returns (r: bv8) { } procedure main() { var x: bool; call x := p(); }
