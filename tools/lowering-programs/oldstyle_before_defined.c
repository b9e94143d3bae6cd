//! uses definitions of the old style
//! defined
static int even(), odd();
static int even(n) unsigned n; { return n == 0 ? 1 : odd(n - 1); }
static int odd(n) unsigned n; { return n == 0 ? 0 : even(n - 1); }
int main(void) { return even(10u) * 2 + odd(7u); }
