//! uses goto
//! defined
#include <stdio.h>
#include <stdlib.h>
#include <string.h>
static int work(const char *what, int fail) {
  int status = -1;
  char *first = NULL, *second = NULL;
  if (!(first = malloc(10))) goto done;
  strcpy(first, what);
  if (fail == 1) goto free_first;
  second = malloc(10);
  if (!second) goto free_first;
  for (int i = 0; i < 3; i++) {
    for (char *c = first; ; c++) {
      if (!*c) break;
      if (*c == 'q') goto free_both;
      second[i] = *c;
    }
    if (i == 1) continue;
    printf("%c\n", second[i]);
  }
  status = 0;
free_both:
  free(second);
free_first:
  free(first);
done:
  return status;
}
int main(void) { return work("abc", 0) + 2 * work("aqc", 0) + 4 * work("x", 1) + 20; }
