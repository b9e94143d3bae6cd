#include <limits.h>
#include <stdio.h>

static int middle(int low, int high) {
  return (low + high) / 2;
}

int main(void) {
  unsigned wrapped = UINT_MAX;
  wrapped++;
  printf("%u\n", wrapped);
  printf("%d\n", middle(2, 8));
  printf("%d\n", middle(INT_MAX - 2, INT_MAX));
  return 0;
}
