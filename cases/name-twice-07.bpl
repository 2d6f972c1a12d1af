procedure p(a: bool) returns (a: bool);
