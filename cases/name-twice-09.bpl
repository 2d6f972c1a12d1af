implementation p() { } procedure p() { }
