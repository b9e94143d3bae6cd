#include <stdio.h>
#include <stdlib.h>

int main(void) {
  printf("%d\n", atoi("2147483647"));
  printf("%d\n", atoi("2147483648"));
  return 0;
}
