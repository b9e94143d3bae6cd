//! uses formats of printf
//! said 
//! fault undefined clause=7.1.4p1 reason=null line=6
#include <stdio.h>
int main(void) { char *none = 0;
  printf("%s %5u\n", none, -1);
  return 0;
}
