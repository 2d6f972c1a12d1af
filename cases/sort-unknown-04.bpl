const x: bool; procedure p(); modifies x;
