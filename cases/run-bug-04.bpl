function f(a: bool): bool { !a } procedure main() returns (r: bool) { assert f(r); }
