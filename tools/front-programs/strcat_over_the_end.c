#include <stdio.h>
#include <string.h>

int main(void) {
  char text[8];
  strcpy(text, "hello");
  strcat(text, " world");
  puts(text);
  return 0;
}
