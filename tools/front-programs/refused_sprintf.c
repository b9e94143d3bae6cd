#include <stdio.h>

int main(void) {
  char text[16];
  sprintf(text, "%d", 42);
  puts(text);
  return 0;
}
