type T = T;
