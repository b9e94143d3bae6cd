//! left the address of a function with ... is taken
static int f(int n, ...) { return n; }
int main(void) { int (*p)(int, ...) = f; return p(1, 2); }
