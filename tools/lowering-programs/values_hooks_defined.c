//! uses library functions as values
//! defined
#include <stdlib.h>
#include <string.h>
#include <stdio.h>
static struct { void *(*make)(size_t); void (*drop)(void *); void *(*grow)(void *, size_t); } hooks = { malloc, free, realloc };
static char *twice(const char *s) {
  char *t = hooks.make(strlen(s) + 1);
  if (!t) return 0;
  strcpy(t, s);
  t = hooks.grow(t, 2 * strlen(s) + 1);
  memmove(t + strlen(s), s, strlen(s) + 1);
  return t;
}
int main(void) {
  char *t = twice("ab");
  printf("%s\n", t);
  hooks.drop(t);
  return 0;
}
