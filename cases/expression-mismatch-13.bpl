const m: [bool]bool; axiom m[1bv8];
