var a, b, c, d, e, f, g, h, i, j, k, l, m, n, o, p: bool; procedure main() { var q: bool; }
