#include <stdio.h>

int main(void) {
  int numbers[10], sum = 0;
  int *end = numbers + 10;
  for (int *at = numbers; at != end; at++)
    *at = 1;
  for (int i = 0; i <= 10; i++)
    sum += numbers[i];
  printf("%d\n", sum);
  return 0;
}
