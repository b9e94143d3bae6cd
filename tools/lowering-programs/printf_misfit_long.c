//! uses formats of printf
//! said ok\n
//! fault undefined clause=7.21.6.1p9 reason=format line=7
#include <stdio.h>
int main(void) { unsigned long size = -1;
  printf("ok\n");
  printf("%zu %zd\n", size, size);
  return 0;
}
