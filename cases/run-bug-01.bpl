procedure main() returns (r: bool) { var l: bool; havoc l; assert l; }
