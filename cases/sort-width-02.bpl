function {:bvbuiltin "zero_extend 60"} f(a: bv8): bv64;
