//! uses initializers
//! defined
#include <stdio.h>
static int calls;
static int next(const char *who) { printf("%s\n", who); return ++calls; }
struct four { int a, b, c, d; };
int main(void) {
  struct four f = { .a = next("first"), .c = next("second"), 9 };
  char text[2][4] = { "ab", [1] = { 'c', 'd' } };
  struct four g[2] = { f, [1].b = 4 };
  for (struct four *at = (struct four[2]){{1}} ? g : 0, stop = { .d = 2 }; stop.d; at++, stop.d--)
    printf("%d %d %d %d\n", at->a, at->b, at->c, at->d);
  printf("%s %s\n", text[0], text[1]);
  return 0;
}
