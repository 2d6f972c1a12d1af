function {:bvbuiltin "bvnot"} f(a: bool): bool;
