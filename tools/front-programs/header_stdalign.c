/* <stdalign.h>: alignof is a constant expression. */
#include <stdalign.h>
#include <stdio.h>

struct pair {
  char letter;
  long number;
};

static char room[alignof(struct pair)];

int main(void) {
  printf("%d %d\n", __alignas_is_defined, __alignof_is_defined);
  printf("%lu %lu %lu %lu\n", alignof(char), alignof(short), alignof(int), alignof(long long));
  printf("%lu %lu %lu\n", alignof(char *), alignof(struct pair), sizeof room);
  return 0;
}
