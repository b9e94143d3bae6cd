//! left an argument of another type than va_arg's
#include <stdarg.h>
static int sum(int n, ...) { va_list a; int t = 0; va_start(a, n); while (n--) t += va_arg(a, int); va_end(a); return t; }
int main(void) { return sum(2, 1, 2L); }
