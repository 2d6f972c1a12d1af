var a: b; var a: bool;
