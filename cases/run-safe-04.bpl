procedure main() { var x: bool; assume x; return; }
