procedure p(a: bool) returns (b: bool) { call b := p(b); b := a; }
