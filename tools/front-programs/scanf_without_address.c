/* A place for the second number is missing. */
#include <stdio.h>

int main(void) {
  int number;
  return scanf("%d%d", &number);
}
