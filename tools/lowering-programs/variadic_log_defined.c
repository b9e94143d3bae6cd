//! uses functions with ...
//! defined
#include <stdio.h>
#include <stdarg.h>
#include <stdlib.h>
enum level { LOW, HIGH };
static enum level threshold = HIGH;
static const char *name(enum level l) { return l == HIGH ? "high" : "low"; }
static void vlog(enum level l, const char *format, va_list list) { printf("[%s] ", name(l)); vprintf(format, list); puts(""); }
static void note(enum level l, const char *format, ...) { va_list list; if (l < threshold) return; va_start(list, format); vlog(l, format, list); va_end(list); }
static char *make(const char *format, ...) {
  int n, size = 4; char *p, *np;
  if (!(p = malloc(size))) return NULL;
  while (1) {
    va_list ap;
    va_start(ap, format);
    n = vsnprintf(p, size, format, ap);
    va_end(ap);
    if (n < size) return p;
    size = n + 1;
    if (!(np = realloc(p, size))) { free(p); return NULL; }
    p = np;
  }
}
int main(void) {
  note(LOW, "never %d", 1);
  note(HIGH, "%s: %-6.2s|%3d%%", name(LOW), "abc", 50);
  note(HIGH, "nothing");
  char *t = make("%d-%s", 12345, "long enough");
  note(HIGH, "%s %c%c", t, t[0], 'z');
  free(t);
  return 0;
}
