/* The bytes between the members of a structure have no value (6.2.6.1p6), and memcmp reads them. */
#include <stddef.h>
#include <stdio.h>
#include <stdlib.h>
#include <string.h>

struct pair {
  char letter;
  int number;
};

int main(void) {
  struct pair *pairs = malloc(2 * sizeof *pairs);
  if (!pairs)
    return EXIT_FAILURE;
  pairs[0].letter = pairs[1].letter = 'a';
  pairs[0].number = pairs[1].number = 5;
  printf("%d\n", memcmp(&pairs[0].number, &pairs[1].number, sizeof(int)));
  printf("%lu\n", offsetof(struct pair, number));
  printf("%d\n", memcmp(&pairs[0], &pairs[1], sizeof *pairs));
  free(pairs);
  return 0;
}
