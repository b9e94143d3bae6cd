/* A compiler takes eight bytes for this type. */
#include <stdio.h>

typedef int wide __attribute__((mode(DI)));

int main(void) {
  printf("%lu\n", sizeof(wide));
  return 0;
}
