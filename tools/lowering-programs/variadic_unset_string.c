//! uses functions with ...
//! said 
//! fault indeterminate line=7
#include <stdio.h>
#include <stdarg.h>
static int say(const char *format, ...) { va_list l; int n; va_start(l, format);
  n = vprintf(format, l); va_end(l); return n; }
int main(void) { char unset[3]; unset[0] = 'a'; return say("%d %s\n", 1, unset); }
