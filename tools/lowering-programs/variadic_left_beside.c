//! left one expression uses twice
/* Whether va_arg or the function takes the first argument is not said; after the function the list is indeterminate (7.16p3). */
#include <stdarg.h>
static int next(va_list l) { return va_arg(l, int); }
static int both(int n, ...) { va_list l; va_start(l, n); int s = va_arg(l, int) - next(l); va_end(l); return s; }
int main(void) { return both(2, 5, 3); }
