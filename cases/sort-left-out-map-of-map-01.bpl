var m: [[T]bool]bool;
