#include <stdio.h>

int main(void) {
  int numbers[3] = {1, 2, 3}, i = 0;
  int sum = numbers[i];
  i = i + 1, sum += i;
  printf("%d\n", sum);
  numbers[i] = i++;
  return numbers[1];
}
