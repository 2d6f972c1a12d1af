function {:bvbuiltin "bvadd"} f(a: bv8, b: bv9): bv8;
