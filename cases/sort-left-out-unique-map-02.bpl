const unique c: [bool]bool;
