procedure main() { var x: bool; x := 1bv8; }
