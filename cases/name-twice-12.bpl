function {:bvbuiltin} f(): bool { true }
