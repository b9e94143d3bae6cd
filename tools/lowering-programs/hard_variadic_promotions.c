//! uses functions with ...
//! defined
#include <stdarg.h>
enum e { A, B };
static int sum(const char *what, ...) { va_list l, m; int s = 0; va_start(l, what); va_copy(m, l);
  for (; *what; what++) s = s * 2 + va_arg(m, int); va_end(m); s += va_arg(l, int); va_end(l); return s; }
int main(void) { char c = 3; _Bool b = 5; short h = -1; enum e e = B; return sum("....", c, b, h, e) + sum(".", 'a') % 50; }
