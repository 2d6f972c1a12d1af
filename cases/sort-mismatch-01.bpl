procedure p(a: bool); implementation p(a: bv8) { }
