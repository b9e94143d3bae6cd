//! uses functions with ...
//! said 
//! fault indeterminate line=8
#include <stdio.h>
#include <stdarg.h>
static int say(const char *f, ...) { va_list l; int n; va_start(l, f); n = vprintf(f, l); va_end(l); return n; }
struct s { char a, b; };
int main(void) { struct s v; v.a = 1; return say("%d %d\n", v.a, v.b); }
