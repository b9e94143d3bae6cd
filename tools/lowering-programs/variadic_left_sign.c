//! left another type than va_arg's
/* 7.16.1.1p2: a pointer to unsigned char is none to char, nor to void. */
#include <stdarg.h>
static int first(int n, ...) { va_list l; va_start(l, n); char *s = va_arg(l, char *); va_end(l); return s[n]; }
int main(void) { unsigned char b[2] = { 3, 4 }; return first(1, b); }
