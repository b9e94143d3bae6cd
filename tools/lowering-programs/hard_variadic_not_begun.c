//! uses functions with ...
//! fault indeterminate line=6
#include <stdarg.h>
static int f(int n, ...) { va_list l; int s = 0;
  if (n) va_start(l, n);
  s = va_arg(l, int); va_end(l); return s; }
int main(void) { return f(1, 4) + f(0, 5); }
