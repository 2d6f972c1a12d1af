procedure p() { while (*) { goto A; A: } }
