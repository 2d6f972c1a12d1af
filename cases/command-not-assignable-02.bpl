const c: bool; procedure main() { havoc c; }
