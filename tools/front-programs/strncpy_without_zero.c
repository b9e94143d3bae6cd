/* strncpy ends no text that fills its target (7.24.2.4p3): puts reads on. */
#include <stdio.h>
#include <string.h>

int main(void) {
  char month[4];
  strncpy(month, "May", sizeof month);
  puts(month);
  strncpy(month, "June", sizeof month);
  puts(month);
  return 0;
}
