var m: [bool]bool; procedure main() { m[true], m[false] := true, true; }
