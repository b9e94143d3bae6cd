//! left an argument whose type is not its parameter's
static int f(p) int *p; { return p == 0; }
int main(void) { return f(0); }
