#include <stdio.h>
#include <string.h>

int main(void) {
  const char *text = "key value";
  printf("%c\n", *strchr(text, 'v'));
  printf("%c\n", *strchr(text, '='));
  return 0;
}
