/* A compiler takes sixteen bytes for this type. */
#include <stdio.h>

typedef int vector __attribute__((vector_size(16)));

int main(void) {
  printf("%lu\n", sizeof(vector));
  return 0;
}
