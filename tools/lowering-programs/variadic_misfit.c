//! uses functions with ...
//! said 
//! fault undefined clause=7.21.6.1p9 reason=format line=7
#include <stdio.h>
#include <stdarg.h>
static int say(const char *format, ...) { va_list l; int n; va_start(l, format);
  n = vprintf(format, l); va_end(l); return n; }
int main(void) { return say("%d %d\n", 1, 2L); }
