function f(a: bool, a: bool): bool;
