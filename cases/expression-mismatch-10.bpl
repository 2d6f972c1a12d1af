axiom if true then true else 1bv8;
