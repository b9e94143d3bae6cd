//! uses definitions of the old style
//! defined
#include <stdio.h>
struct p { int x, y; };
static int area();
static unsigned char low(n, c) unsigned n; char c; { return n + c; }
static int each(f, a, n) int (*f)(int); int a[], n; { int s = 0; while (n--) s += f(a[n]); return s; }
static int twice(int n) { return 2 * n; }
static int area(p, scale)
  struct p p;
  short scale;
{
  return p.x * p.y * scale;
}
int main(void) {
  struct p p = { 2, 3 };
  int a[] = { 1, 2, 3 };
  short s = 2;
  printf("%d %d %d\n", low(300u, 'a'), each(twice, a, 3), area(p, s));
  return 0;
}
