/* An arena whose bytes are declared: an int may not be stored in an array of characters (6.5p7). */
#include <stddef.h>
#include <stdio.h>

static union { long first; char bytes[64]; } whole;
static char bytes[64];
static size_t used;

static void *taken(size_t size) {
  void *result = bytes + used;
  used += (size + 7) / 8 * 8;
  return result;
}

int main(void) {
  long *first = (long *)whole.bytes;
  *first = 1;
  printf("in a union with a long: %ld\n", *first);
  int *second = taken(sizeof *second);
  *second = 2;
  printf("in characters: %d\n", *second);
  return 0;
}
