//! uses goto
//! defined
#include <stdio.h>
int main(void) {
  int n = 0, *p = 0;
again:
  if (p) printf("%d\n", *p);
  int x = n * 10;
  p = &x;
  n++;
  if (n < 3) { x++; goto again; }
  int y = x + *p, z;
  z = y;
  if (z > 50) goto end;
  printf("%d\n", y);
end: printf("%d\n", z);
  return 0;
}
