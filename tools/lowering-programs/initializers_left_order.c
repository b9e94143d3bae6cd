//! left the values stand in another order
int f(void) { return 1; }
int main(void) { struct { int a, b; } v = { .b = f(), .a = f() }; return v.a; }
