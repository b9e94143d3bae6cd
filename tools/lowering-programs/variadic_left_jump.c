//! left a jump may hand over again
/* 7.16p3: a list that vprintf had is indeterminate. */
#include <stdarg.h>
#include <stdio.h>
static void twice(const char *format, ...) {
  int n = 0; va_list l; va_start(l, format);
again:
  vprintf(format, l);
  if (n++ < 1) goto again;
  va_end(l);
}
int main(void) { twice("%d %d\n", 1, 2); return 0; }
