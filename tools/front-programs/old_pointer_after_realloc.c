#include <stdio.h>
#include <stdlib.h>

int main(void) {
  int *numbers = malloc(2 * sizeof *numbers), *first = numbers;
  if (!numbers)
    return EXIT_FAILURE;
  numbers[0] = 5;
  numbers = realloc(numbers, 100 * sizeof *numbers);
  if (!numbers)
    return EXIT_FAILURE;
  printf("%d\n", numbers[0]);
  printf("%d\n", *first);
  return 0;
}
