function {:bvbuiltin 1} f(): bool { true }
