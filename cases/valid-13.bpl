procedure p() { return; if (*) { } }
