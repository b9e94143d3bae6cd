#include <assert.h>
#include <stddef.h>

struct point { char name; int x, y; };
struct shape { char kind; struct point corners[3]; const char *label; };
union word { long whole; char bytes[8]; };
struct large { char bytes[16376]; long last; };

int main(void) {
  int numbers[4];
  ptrdiff_t apart = &numbers[3] - &numbers[0];
  size_t size = sizeof numbers;
  int *none = NULL;

  assert(apart == 3 && size == 16 && !none);
  assert(offsetof(struct point, name) == 0);
  assert(offsetof(struct point, y) == 8);
  assert(offsetof(struct shape, corners) == 4);
  assert(offsetof(struct shape, corners[2].x) == 32);
  assert(offsetof(struct shape, label) == 40);
  assert(offsetof(union word, bytes[7]) == 7);
  assert(offsetof(struct large, last) == 16376);
  assert(sizeof(max_align_t) % sizeof(long) == 0);
  assert(sizeof(wchar_t) == 4 && sizeof(offsetof(struct point, x)) == sizeof(size_t));
  return 0;
}
