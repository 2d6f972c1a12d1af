function f(): bool { f() }
