implementation p() { } implementation p() { }
