function {:bvbuiltin "(_ zero_extend 08)"} f(a: bv8): bv16; axiom f(1bv8) == 1bv16;
