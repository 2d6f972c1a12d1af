procedure p() { goto A, A; A: }
