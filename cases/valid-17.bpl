const c: bool; axiom c; var x: bv8;
