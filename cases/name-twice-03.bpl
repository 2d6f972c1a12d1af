type T = bool; type T = bv8;
