var x: int;
