procedure p(); modifies a; var x: T;
