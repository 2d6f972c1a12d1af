type T = [bool]bool; var m: [T]bool;
