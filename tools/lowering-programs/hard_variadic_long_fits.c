//! uses functions with ...
//! said -1 18446744073709551615 ffffffff 4294967295\n
//! fault undefined clause=7.21.6.1p9 reason=format line=6
#include <stdio.h>
#include <stdarg.h>
static void say(const char *f, ...) { va_list l; va_start(l, f); vprintf(f, l); va_end(l); }
int main(void) { say("%ld %lu %x %u\n", -1L, -1UL, -1u, 4294967295u); say("%lu\n", -1L); return 0; }
