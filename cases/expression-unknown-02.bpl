function f() returns (r: bool) { r }
