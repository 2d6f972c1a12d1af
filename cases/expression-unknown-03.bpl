var x: bool; axiom x;
