//! uses functions with ...
//! said begun\n
//! fault undefined clause=6.2.4p2 reason=ended line=12
#include <stdio.h>
#include <stdarg.h>
#include <stdlib.h>
static void say(const char *format, ...) { va_list l; va_start(l, format); vprintf(format, l); va_end(l); }
int main(void) {
  char *p = malloc(2); p[0] = 0;
  say("%s\n", "begun"); free(p);
  say("%d %s\n", 1,
    p);
  return 0;
}
