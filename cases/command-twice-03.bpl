procedure p() returns (a: bool, b: bool) { } procedure main() { var x: bool; call x, x := p(); }
