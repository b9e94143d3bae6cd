//! left a value of the list overrides
int main(void) { int i = 0; int a[2] = { [0] = i++, [1] = 2, [0] = 3 }; return a[0] + i; }
