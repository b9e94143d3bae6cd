#include <assert.h>
#include <stdio.h>

static int average(int sum, int count) {
#line 7 "average.c"
  assert(count != 0 && "a count of 0%");
  return sum / count;
}

int main(void) {
  printf("%d\n", average(6, 3));
  printf("%d\n", average(6, 0));
  return 0;
}
