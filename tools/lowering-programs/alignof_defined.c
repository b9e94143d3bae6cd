//! uses _Alignof
//! defined
#include <stdio.h>
struct mixed { char c; short s; };
typedef struct { char c; struct mixed m[3]; long *p; } large;
union both { char c; int n; };
static unsigned long room = _Alignof(long);
int main(void) {
  enum { four = _Alignof(union both) };
  switch (_Alignof(struct mixed)) { case 2: printf("two\n"); }
  printf("%lu %lu %d %lu\n", _Alignof(large), room, four, _Alignof(const char [7]));
  return sizeof _Alignof(char) + _Alignof(int (*)(void));
}
