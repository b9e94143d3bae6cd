//! left a va_list that is used again
#include <stdio.h>
#include <stdarg.h>
static void say(const char *f, ...) { va_list l; va_start(l, f); vprintf(f, l); vprintf(f, l); va_end(l); }
int main(void) { say("%d\n", 1); return 0; }
