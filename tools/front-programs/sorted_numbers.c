#include <stdio.h>
#include <stdlib.h>

static int by_value(const void *left, const void *right) {
  int a = *(const int *)left, b = *(const int *)right;
  return (a > b) - (a < b);
}

int main(void) {
  int numbers[] = {5, -3, 12, 0, 7, 7, -2147483647 - 1, 1};
  size_t count = sizeof numbers / sizeof numbers[0];
  qsort(numbers, count, sizeof numbers[0], by_value);
  for (size_t i = 0; i < count; i++)
    printf("%d\n", numbers[i]);
  int wanted = 7, absent = 6;
  int *found = bsearch(&wanted, numbers, count, sizeof numbers[0], by_value);
  printf("%d %d\n", found ? *found : -1, bsearch(&absent, numbers, count, sizeof numbers[0], by_value) == NULL);
  return 0;
}
