procedure p(a: bool); implementation p() { }
