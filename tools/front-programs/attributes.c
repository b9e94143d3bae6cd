/* Attributes and pragmas that mean nothing to a run. */
#include <stdio.h>
#pragma GCC diagnostic ignored "-Wunused-function"
_Pragma("STDC FP_CONTRACT OFF")

static int twice(int) __attribute__((__const__, noinline,
                                     warn_unused_result));


static int twice(int number) {
  return 2 * number;
}

int main(void) {
  int unused __attribute__((unused)) = 3;
  switch (twice(1)) {
  case 2:
    printf("two\n");
    __attribute__((fallthrough));
  default:
    printf("%d\n", __LINE__);
  }
  return 0;
}
