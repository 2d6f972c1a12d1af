procedure p() { goto A; }
