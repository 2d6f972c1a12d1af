var x: bool; function f(): bool { x }
