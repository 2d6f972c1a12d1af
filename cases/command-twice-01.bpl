procedure main() { var x: bool; x, x := true, false; }
