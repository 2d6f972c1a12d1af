const m: [bool]bool; axiom m != m;
