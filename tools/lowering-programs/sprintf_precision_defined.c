//! uses formats of sprintf
//! defined
/* What the precision keeps from being read may be written (7.21.6.6p2 is of what is copied). */
#include <stdio.h>
int main(void) {
  char b[12] = "abc";
  int n = sprintf(b + 3, "%.3s", b);
  n += snprintf(b, 4, "%.0s%d", b, 12345);
  return printf("%s %s %d\n", b, b + 4, n);
}
