//! uses definitions of the old style
//! fault undefined clause=6.2.4p2 reason=ended line=5
static int *address(n) int n; { int *p = &n; return p; }
int main(void) {
  return *address(3);
}
