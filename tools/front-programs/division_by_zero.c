#include <stdio.h>
#include <stdlib.h>

int main(void) {
  int count = atoi("0 people");
  printf("%d\n", count);
  return div(100, count).quot;
}
