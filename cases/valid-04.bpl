const c: bv8; function f(c: bool): bool { c }
