/* The size that strncat is given leaves out the zero that it adds (7.24.3.2p2). */
#include <stdio.h>
#include <string.h>

int main(void) {
  char text[8] = "abc";
  strncat(text, "defghi", sizeof text - strlen(text) - 1);
  puts(text);
  text[3] = 0;
  strncat(text, "defghi", sizeof text - strlen(text));
  puts(text);
  return 0;
}
