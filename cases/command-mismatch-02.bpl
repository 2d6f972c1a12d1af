procedure main() { var x: bool; x[a] := true; }
