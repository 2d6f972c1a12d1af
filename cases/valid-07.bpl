axiom if true then false else true;
