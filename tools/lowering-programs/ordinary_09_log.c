//! uses formats of printf
//! uses functions with ...
//! uses _Alignof
//! defined
#include <stdio.h>
#include <stdarg.h>
#include <stdlib.h>
#include <string.h>
struct buffer { char *text; size_t used, size; };
static int append(struct buffer *b, const char *format, ...) {
  va_list list, again;
  va_start(list, format);
  va_copy(again, list);
  int n = vsnprintf(NULL, 0, format, list);
  va_end(list);
  if (b->used + n + 1 > b->size) { b->size = (b->used + n + 1) * 2; b->text = realloc(b->text, b->size); }
  vsnprintf(b->text + b->used, b->size - b->used, format, again);
  va_end(again);
  b->used += n;
  return n;
}
static int greatest(int count, ...) { va_list l; int most = -2147483647; va_start(l, count); while (count--) { int n = va_arg(l, int); if (n > most) most = n; } va_end(l); return most; }
int main(void) {
  struct buffer b = { 0 };
  append(&b, "%s=%d", "answer", 42);
  for (int i = 0; i < 3; i++) append(&b, ", [%02x:%5.2s]", i * 100, "abc");
  append(&b, " %zu %c", strlen(b.text), '!');
  printf("%s\n%d %zu\n", b.text, greatest(4, 3, 9, -2, 7), _Alignof(struct buffer));
  free(b.text);
  return 0;
}
