var x: T;
