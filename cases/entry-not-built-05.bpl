procedure main() { var x: bv1; }
