procedure p() { A: if (*) { break A; } }
