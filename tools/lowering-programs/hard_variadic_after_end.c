//! uses functions with ...
//! fault undefined clause=6.5.3.2p4 reason=outside line=5
#include <stdarg.h>
static int f(int n, ...) { va_list l; int s; va_start(l, n); s = va_arg(l, int); va_end(l); if (n > 1)
    s += va_arg(l, int);
  return s; }
int main(void) { return f(1, 4) + f(2, 5, 6); }
