//! uses formats of printf
//! fault indeterminate line=7
#include <stdio.h>
int main(void) {
  int width, n = 2;
  printf("%*d\n",
    width, n);
  return 0;
}
