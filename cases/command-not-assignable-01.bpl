procedure main(a: bool) { a := true; }
