//! left one expression uses twice
#include <stdarg.h>
static int f(int n, ...) { va_list l; va_start(l, n); n = va_arg(l, int) - va_arg(l, int); va_end(l); return n; }
int main(void) { return f(1, 2, 3); }
