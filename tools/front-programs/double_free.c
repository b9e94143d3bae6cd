#include <stdio.h>
#include <stdlib.h>
#include <string.h>

int main(void) {
  char *text = malloc(16), *alias = text;
  if (!text)
    return EXIT_FAILURE;
  strcpy(text, "once");
  puts(text);
  free(text);
  free(alias);
  return 0;
}
