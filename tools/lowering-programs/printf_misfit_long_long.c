//! uses formats of printf
//! said 
//! fault undefined clause=7.21.6.1p9 reason=format line=6
#include <stdio.h>
int main(void) { long long n = -1;
  printf("%i %llu\n", 1, n);
  return 0;
}
