//! uses formats of printf
//! said 
//! fault undefined clause=6.2.4p2 reason=ended line=8
#include <stdio.h>
static char *dead(void) { char c = 'x'; char *p = &c; return p; }
int main(void) {
  int n = 2;
  printf("%*d %.1s\n", 5, n, dead());
  return 0;
}
