//! uses formats of sprintf
//! fault undefined clause=6.2.4p2 reason=ended line=7
#include <stdio.h>
int main(void) {
  char *p; { char inner[8]; sprintf(inner, "%c%c%c", 'a', 'b', 0); p = inner; }
  int n = 1;
  n += sprintf(p, "%d", n);
  return n;
}
