//! uses functions with ...
//! fault undefined clause=6.5p2 reason=unsequenced line=8
#include <stdarg.h>
static int sum(int n, ...) { va_list a; int t = 0; va_start(a, n); while (n--) t += va_arg(a, int); va_end(a); return t; }
int main(void) {
  int i = 1;
  return sum(i++,
    i, 2);
}
