#include <stdio.h>

int main(void) {
  char text[] = "   ";
  char *end = text + sizeof text - 1;
  while (end[-1] == ' ')
    end--;
  *end = 0;
  puts(text);
  return 0;
}
