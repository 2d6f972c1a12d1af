procedure p() modifies x, x; { havoc x, x; } var x: bool;
