#include <stdio.h>

static int largest(const int numbers[], int count) {
  int result;
  for (int i = 0; i < count; i++)
    if (i == 0 || numbers[i] > result)
      result = numbers[i];
  return result;
}

int main(void) {
  int numbers[] = {3, 9, 4};
  printf("%d\n", largest(numbers, 3));
  printf("%d\n", largest(numbers, 0));
  return 0;
}
