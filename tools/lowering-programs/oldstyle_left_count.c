//! left a call with another number of arguments
static int f(n) int n; { return n; }
int main(void) { return f(1, 2); }
