//! uses definitions of the old style
//! defined
static int half(n, m) unsigned n; int m; { return n / 2 + m; }
int main(void) { return half(30, 4u); }
