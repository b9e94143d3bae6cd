/* An arena in an allocation: bytes of it may hold objects of any type (6.5p6), and others behind a reset. */
#include <assert.h>
#include <stdint.h>
#include <stdio.h>
#include <stdlib.h>

enum { ALIGNED = 16 };

struct arena {
  char *bytes;
  size_t used, size;
};

static void *taken(struct arena *arena, size_t size) {
  size_t start = (arena->used + ALIGNED - 1) / ALIGNED * ALIGNED;
  if (start + size > arena->size)
    return NULL;
  arena->used = start + size;
  return arena->bytes + start;
}

int main(void) {
  struct arena arena = {malloc(64), 0, 64};
  assert(arena.bytes);
  char *letter = taken(&arena, 1);
  int *numbers = taken(&arena, 3 * sizeof *numbers);
  uint64_t *wide = taken(&arena, sizeof *wide);
  *letter = 'x';
  numbers[2] = 7;
  *wide = UINT64_MAX;
  printf("%c %d %lu %lu\n", *letter, numbers[2], *wide, arena.used);
  assert(taken(&arena, 33) == NULL);
  arena.used = 0;
  uint64_t *again = taken(&arena, sizeof *again);
  *again = 5;
  printf("%lu\n", *again);
  free(arena.bytes);
  return 0;
}
