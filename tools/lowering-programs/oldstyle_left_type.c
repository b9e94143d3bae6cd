//! left an argument whose type is not its parameter's
static int f(n) long n; { return n; }
int main(void) { return f(1); }
