function {:bvbuiltin "bvnot"} {:bvbuiltin "bvnot"} f(a: bv8): bv8; axiom f(1bv8) == 1bv8;
