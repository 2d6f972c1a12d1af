procedure main() returns (a: bool); implementation main() returns (b: bool) { assert b; }
