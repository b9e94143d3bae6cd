/* A compiler calls bye where the block ends. */
#include <stdio.h>

static void bye(int *number) {
  printf("bye %d\n", *number);
}

int main(void) {
  __attribute__((cleanup(bye))) int number = 3;
  return 0;
}
