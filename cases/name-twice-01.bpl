var a: bool; var a: bool;
