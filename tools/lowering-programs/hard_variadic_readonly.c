//! uses functions with ...
//! fault undefined clause=6.4.5p7 reason=readonly line=5
#include <stdio.h>
#include <stdarg.h>
static int into(char *to, const char *f, ...) { va_list l; int n; va_start(l, f); n = vsprintf(to, f, l); va_end(l); return n; }
int main(void) { return into("text", "%c", 'T'); }
