type S = T; type T = S;
