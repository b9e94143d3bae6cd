#include <stdio.h>
#include <stdlib.h>

static void stop(const char *why) {
  fprintf(stderr, "%s\n", why);
  exit(EXIT_FAILURE);
}

int main(void) {
  printf("%d%%\n", 50);
  stop("no input");
  return EXIT_SUCCESS;
}
