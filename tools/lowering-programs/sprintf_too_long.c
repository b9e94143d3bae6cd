//! uses formats of sprintf
//! fault undefined clause=6.5.3.2p4 reason=outside line=6
#include <stdio.h>
int main(void) {
  char small[4];
  sprintf(small, "%d.",
          123);
  return small[0];
}
