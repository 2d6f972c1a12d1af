const m: [bool]bool; axiom m == true;
