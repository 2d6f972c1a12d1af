procedure main() { call p(); } procedure p() { }
