procedure p(); procedure q() { goto A; } implementation p() { goto B; }
