#include <stdlib.h>
#include <string.h>

int main(void) {
  char *text = malloc(8);
  if (!text)
    return EXIT_FAILURE;
  strcpy(text, "  word");
  while (*text == ' ')
    text++;
  free(text);
  return 0;
}
