type T = U; type U = [bv8]bool; const m: T; axiom m[1bv8];
