function g(): bool; function f(): bool { g() }
