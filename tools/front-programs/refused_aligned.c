/* A compiler makes this structure 16 bytes long. */
#include <stdio.h>

struct letters {
  char some[3] __attribute__((unused, __aligned__(8)));
  char more[8];
};

int main(void) {
  printf("%lu\n", sizeof(struct letters));
  return 0;
}
