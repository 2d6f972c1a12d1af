const a: bool; var a: bool;
