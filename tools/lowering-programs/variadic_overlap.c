//! uses functions with ...
//! fault undefined clause=7.24.2.1p2 reason=overlap line=6
#include <stdio.h>
#include <stdarg.h>
static int into(char *to, const char *format, ...) { va_list l; int n; va_start(l, format);
  n = vsprintf(to, format, l); va_end(l); return n; }
int main(void) { char text[9] = "abc"; return into(text, "x%s", text); }
