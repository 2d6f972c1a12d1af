procedure p(a: bool) { var a: bool; }
