procedure p(); modifies x;
