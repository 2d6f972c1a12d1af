procedure main() { var x: bool; x, y := true; }
