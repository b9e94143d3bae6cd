/* A compiler calls begin before main. */
#include <stdio.h>

static int number;

__attribute__((constructor)) static void begin(void) {
  number = 5;
}

int main(void) {
  printf("%d\n", number);
  return 0;
}
