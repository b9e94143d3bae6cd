#include <stdio.h>
#include <string.h>

int main(void) {
  char text[16] = "abcdef";
  memmove(text + 1, text, 7);
  puts(text);
  memcpy(text + 1, text, 8);
  puts(text);
  return 0;
}
