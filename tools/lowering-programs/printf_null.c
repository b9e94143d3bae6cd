//! uses formats of printf
//! said 
//! fault undefined clause=7.1.4p1 reason=null line=7
#include <stdio.h>
#include <stddef.h>
int main(void) { const char *name = NULL;
  printf("%d: %-10s|\n", 1, name);
  return 0;
}
