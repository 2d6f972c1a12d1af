procedure main() { A: goto A; }
