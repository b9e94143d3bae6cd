/* The address of `hidden` is right, but nobody made it known to integers: the pointer has no provenance. */
#include <stdint.h>
#include <stdio.h>

int main(void) {
  int exposed = 1, hidden = 2;
  int *hidden_place = &hidden;
  uintptr_t address = (uintptr_t)&exposed;
  while ((int *)address != hidden_place)
    address += sizeof(int);
  printf("found\n");
  return *(int *)address;
}
