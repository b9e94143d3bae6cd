//! uses functions with ...
//! said abc 5\n
//! fault undefined clause=7.1.4p1 reason=null line=7
#include <stdarg.h>
#include <stdio.h>
static void say(const char *format, ...) { va_list l; va_start(l, format);
  vprintf(format, l);
  va_end(l);
}
int main(void) { say("%s %d\n", "abc", 5); say("%5d %s\n", 6, (char *)0); return 0; }
