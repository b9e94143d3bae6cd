#include <stdio.h>

int main(void) {
  int hours = 9, minutes = 5;
  printf("%d:", hours);
  printf("%02d\n", minutes);
  return 0;
}
