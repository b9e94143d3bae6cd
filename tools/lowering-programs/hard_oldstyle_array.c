//! uses definitions of the old style
//! fault undefined clause=6.5.3.2p4 reason=outside line=3
static int last(a, n) int a[], n; { return a[n]; }
int main(void) { int a[2] = { 1, 2 }; return last(a, 1) + last(a, 2); }
