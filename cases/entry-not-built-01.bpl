const c: bool; procedure main() { }
