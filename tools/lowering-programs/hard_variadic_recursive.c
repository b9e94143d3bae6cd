//! uses functions with ...
//! defined
#include <stdarg.h>
#include <stdio.h>
static int total(int n, ...) { va_list l; int s = 0; va_start(l, n);
  for (int i = 0; i < n; i++) { int v = va_arg(l, int); s += v > 2 ? total(2, v - 1, v - 2) : v; } va_end(l); return s; }
static void line(const char *f, ...) { char b[50]; va_list l; va_start(l, f); vsprintf(b, f, l); va_end(l); printf("[%s]\n", b); }
int main(void) { line("%d %s %c", total(3, 5, total(1, 1), 3), "x", total(1, 'a' / 50)); line(""); return total(0); }
