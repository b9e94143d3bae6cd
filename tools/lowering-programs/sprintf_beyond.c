//! uses formats of sprintf
//! fault undefined clause=6.5.3.2p4 reason=outside line=7
/* Nothing may be written behind an array, whatever lies there. */
#include <stdio.h>
int main(void) {
  char b[4], s[4] = "abc";
  return sprintf(b + 4, "%s", s) + sprintf(b, "%d", 1);
}
