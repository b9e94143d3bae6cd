//! left a pointer that a call gives
static int *f(void) { int x = 1; return &x; }
struct s { int *p; };
int main(void) { return (&(struct s){ f() })->p == 0; }
