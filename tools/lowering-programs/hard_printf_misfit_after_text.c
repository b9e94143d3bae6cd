//! uses formats of printf
//! said first\n
//! fault undefined clause=7.21.6.1p9 reason=format line=8
#include <stdio.h>
int main(void) {
  unsigned long big = 1UL << 63;
  printf("%s\n", "first");
  printf("%-5s %c %lx %+ld\n",
    "second", 'c', big, big);
  return 0;
}
