//! uses formats of sprintf
//! fault undefined clause=7.1.4p1 reason=null line=6
#include <stdio.h>
int main(void) {
  char b[9]; char *none = 0; int n = snprintf(none, 0, "%d", 12345);
  return sprintf(b, "%.0s%d",
    none, n); }
