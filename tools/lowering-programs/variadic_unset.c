//! uses functions with ...
//! fault indeterminate line=8
#include <stdarg.h>
static int sum(int n, ...) { va_list a; int t = 0; va_start(a, n); while (n--) t += va_arg(a, int); va_end(a); return t; }
int main(void) {
  char unset;
  return sum(2, 1,
    unset);
}
