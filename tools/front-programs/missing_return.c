#include <stdio.h>

static int sign(int number) {
  if (number > 0)
    return 1;
  if (number < 0)
    return -1;
}

int main(void) {
  printf("%d\n", sign(-5));
  sign(0);
  printf("%d\n", sign(0));
  return 0;
}
