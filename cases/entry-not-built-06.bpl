procedure main() returns (x: bv1) { }
