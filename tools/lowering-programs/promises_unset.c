//! uses [static n]
//! fault indeterminate line=3
int sum(int n, int a[static 3]) { return n ? a[n] : 0; }
int main(void) { int a[4]; a[0] = 1; return sum(2, a); }
