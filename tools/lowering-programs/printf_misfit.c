//! uses formats of printf
//! said 
//! fault undefined clause=7.21.6.1p9 reason=format line=6
#include <stdio.h>
int main(void) {
  printf("%d %5u\n",
         1,
         -1);
  return 0;
}
