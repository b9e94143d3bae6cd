#include <stdlib.h>

int main(void) {
  int *number = malloc(sizeof *number);
  if (!number)
    return EXIT_FAILURE;
  *number = 3;
  free(number);
  return *number;
}
