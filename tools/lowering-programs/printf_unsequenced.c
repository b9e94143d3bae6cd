//! uses formats of printf
//! said 
//! fault undefined clause=6.5p2 reason=unsequenced line=8
#include <stdio.h>
int main(void) {
  int i = 0;
  printf("%05d %d\n",
         i++, i);
  return 0;
}
