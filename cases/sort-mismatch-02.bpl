procedure p() returns (a: bool); implementation p() returns (a: bv8) { }
