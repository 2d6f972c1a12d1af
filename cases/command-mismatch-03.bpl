var m: [bool]bool; procedure main() { m[1bv8] := true; }
