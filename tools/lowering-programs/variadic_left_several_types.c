//! left va_arg of several types
#include <stdarg.h>
static int f(const char *s, ...) { va_list l; int n = 0; va_start(l, s); for (; *s; s++) if (*s == 'i') n += va_arg(l, int); else n += va_arg(l, long); va_end(l); return n; }
int main(void) { return f("il", 1, 2L); }
