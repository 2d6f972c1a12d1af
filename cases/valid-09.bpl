procedure p() { A: B: while (*) { break B; } }
