//! uses functions with ...
//! fault undefined clause=6.5.3.2p4 reason=outside line=6
#include <stdio.h>
#include <stdarg.h>
static int into(char *to, const char *format, ...) { va_list l; int n; va_start(l, format);
  n = vsprintf(to, format, l); va_end(l); return n; }
int main(void) { char four[4]; return into(four, "%d", 123) + into(four, "%04d", 1); }
