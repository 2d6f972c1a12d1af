const unique c: [T]bool;
