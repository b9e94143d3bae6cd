//! uses functions with ...
//! fault undefined clause=6.2.4p2 reason=ended line=9
#include <stdarg.h>
static int *inner(void) { int n = 4; return &n; }
static int use(int count, ...) {
  va_list l; int n = 0; va_start(l, count);
  if (count > 1)
    n = *
    va_arg(l, int *);
  va_end(l);
  return n;
}
int main(void) { return use(1, inner()) + use(2, inner()); }
