function {:bvbuiltin "bvadd"} f(a: bv8): bv8;
