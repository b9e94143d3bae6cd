#include <stdio.h>
#include <stdlib.h>

int main(void) {
  printf("%ld\n", strtol("1z", NULL, 36));
  printf("%ld\n", strtol("11", NULL, 1));
  return 0;
}
