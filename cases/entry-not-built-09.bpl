procedure main() { A: }
