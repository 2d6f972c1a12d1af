const m: [bool]bool; axiom true == m;
