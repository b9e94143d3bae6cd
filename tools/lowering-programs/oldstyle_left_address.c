//! left the address of 'f' is taken
static int f(n) int n; { return n; }
int main(void) { int (*p)() = f; return p(1); }
