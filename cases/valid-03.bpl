function {:bvbuiltin "bvnone"} f(a: bv8): bv8;
