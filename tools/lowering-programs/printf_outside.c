//! uses formats of printf
//! said \n
//! fault undefined clause=6.5.3.2p4 reason=outside line=7
#include <stdio.h>
int main(void) { char three[3] = { 'a', 'b', 'c' };
  printf("\n");
  printf("%3d %.4s\n", 1, three);
  return 0;
}
