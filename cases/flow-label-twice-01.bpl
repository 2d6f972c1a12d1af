procedure main() { A: A: }
