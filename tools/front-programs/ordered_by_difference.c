#include <limits.h>
#include <stdlib.h>

static int by_difference(const void *left, const void *right) {
  return *(const int *)left - *(const int *)right;
}

int main(void) {
  int numbers[] = {3, INT_MIN, 1};
  qsort(numbers, 3, sizeof numbers[0], by_difference);
  return numbers[0] == INT_MIN;
}
