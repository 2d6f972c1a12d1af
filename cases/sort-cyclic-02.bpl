type T = [bool]T;
