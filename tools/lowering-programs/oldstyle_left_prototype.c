//! left an argument whose type is not its parameter's
static int f(c) _Bool c; { return c; }
int main(void) { return f(4); }
