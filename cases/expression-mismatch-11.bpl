axiom if 1bv8 then true else true;
