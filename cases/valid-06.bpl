const c: bool; function c(): bool { c } procedure c() { } type c = bool;
