/* The number that scanf reads is none of an int's (C17 7.21.6.2p10). */
#include <stdio.h>

int main(void) {
  int number = 0;
  while (scanf("%d", &number) == 1)
    printf("%d\n", number);
  return 0;
}
