#include <stdio.h>
#include <string.h>

int main(void) {
  char text[16] = "abcdef";
  strncpy(text, text + 4, 3);
  puts(text);
  strncpy(text, text + 1, 3);
  puts(text);
  return 0;
}
