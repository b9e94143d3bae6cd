#include <limits.h>
#include <stdio.h>
#include <stdlib.h>

int main(void) {
  printf("%d\n", abs(INT_MIN + 1));
  printf("%d\n", abs(INT_MIN));
  return 0;
}
