var m: [bool]bool; procedure main() { }
