var m: [bool, bool]bool;
