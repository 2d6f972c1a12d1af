function h(): bool { f() } function f(): bool { g() } function g(): bool { f() }
