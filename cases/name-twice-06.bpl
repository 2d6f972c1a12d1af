function f(a: bool) returns (a: bool);
