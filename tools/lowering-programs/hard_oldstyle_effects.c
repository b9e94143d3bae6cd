//! uses definitions of the old style
//! fault undefined clause=6.5p2 reason=unsequenced line=5
static int f(c, n) char c; int n; { return c + n; }
int main(void) { char c = 1;
  return f(c++, c); }
