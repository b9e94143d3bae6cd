//! uses functions with ...
//! fault undefined clause=6.5.3.2p4 reason=outside line=5
#include <stdarg.h>
static int sum(int n, ...) { va_list a; int t = 0; va_start(a, n); while (n--)
    t += va_arg(a, int);
  va_end(a); return t; }
int main(void) { return sum(3, 1, 2, 3) + sum(3, 1, 2); }
