procedure p(); implementation p() { } implementation p() { }
