procedure main(a: bool) { }
