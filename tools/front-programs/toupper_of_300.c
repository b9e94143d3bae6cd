#include <ctype.h>
#include <stdio.h>

int main(void) {
  printf("%d %d\n", toupper(EOF), toupper(255));
  printf("%d\n", toupper(300));
  return 0;
}
