procedure p() { goto A; if (*) { A: } }
