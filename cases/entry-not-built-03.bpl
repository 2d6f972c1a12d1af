var x: bv8; procedure main() { }
