type S = T; type T = T;
