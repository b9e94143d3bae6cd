/* A mark in the lowest bit of an address: the integer keeps the way back, since the address was exposed. */
#include <stdint.h>
#include <stdio.h>
#include <stdlib.h>

static uintptr_t marked(const int *pointer) {
  return (uintptr_t)pointer | 1;
}

static int *unmarked(uintptr_t address) {
  return (int *)(address & ~(uintptr_t)1);
}

int main(void) {
  int *number = malloc(sizeof *number);
  if (!number)
    return EXIT_FAILURE;
  uintptr_t address = marked(number);
  *unmarked(address) = 6;
  printf("%d %d\n", (int)(address & 1), *number);
  free(unmarked(address));
  return 0;
}
