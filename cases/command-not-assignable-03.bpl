procedure main(a: bool) { call a := p(); }
