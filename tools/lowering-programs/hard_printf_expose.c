//! uses formats of printf
//! fault exit status=5
#include <stdio.h>
int main(void) { int x = 1; unsigned long a;
  char b[40]; int n = snprintf(b, sizeof b, "%p", (void *)&x);
  if (n < 3) return 1;
  a = 0; for (int i = 2; b[i]; i++) a = a * 16 + (b[i] <= '9' ? b[i] - '0' : b[i] - 'a' + 10);
  int *p = (int *)a; *p = 5;
  return printf("%.0s", b) + x; }
