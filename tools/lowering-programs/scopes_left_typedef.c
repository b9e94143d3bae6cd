//! left 't' stands outside of the block too
int t = 3;
int main(void) { { typedef int t; t n = 2; if (n == 3) return n; } return t; }
