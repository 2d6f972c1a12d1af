implementation p() { }
