procedure p(a: bool, b: bool); implementation p(a: bv8) { }
