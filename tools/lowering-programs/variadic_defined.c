//! uses functions with ...
//! defined
#include <stdio.h>
#include <stdarg.h>
#include <string.h>
static int sum(int n, ...) { va_list a; int t = 0; va_start(a, n);
  while (n--)
    t += va_arg(a, int);
  va_end(a); return t; }
static const char *last(const char *first, ...);
static void say(const char *format, ...) {
  va_list list;
  va_start(list, format);
  vprintf(format, list);
  va_end(list);
}
static int vinto(char *to, size_t size, const char *format, va_list list) { return vsnprintf(to, size, format, list); }
static int into(char *to, size_t size, const char *format, ...) {
  va_list list, other;
  int n, m;
  va_start(list, format);
  va_copy(other, list);
  n = vinto(to, size, format, list);
  va_end(list);
  m = vsnprintf(0, 0, format, other);
  va_end(other);
  return n == m ? n : -1;
}
int main(void) {
  char b[20];
  short h = 7;
  printf("%d %d %d\n", sum(3, 1, h, 'a'), sum(0), sum(1, -5));
  say("%d|%5s|%-4u|%c|%05ld|%%|%llx|%.2s|%*d|%p\n", -1, "abc", 7u, 'x', 42L, 255ull, "xyz", 4, 9, (void *)0);
  say("plain\n");
  printf("%d %s\n", into(b, sizeof b, "%s-%03d-%+d", "text", 7, 8), b);
  printf("%d %s\n", into(b, 5, "%s-%03d", "text", 7), b);
  printf("%s\n", last("a", "b", "c", (char *)0));
  return 0;
}
static const char *last(const char *first, ...) {
  va_list l; const char *at;
  va_start(l, first);
  while ((at = va_arg(l, const char *))) first = at;
  va_end(l);
  return first;
}
