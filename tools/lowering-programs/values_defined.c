//! uses library functions as values
//! defined
#include <stdio.h>
#include <stdlib.h>
#include <string.h>
typedef int compare(const char *, const char *);
static compare *by = strcmp;
static void sort(const char **words, int n, compare *how) {
  for (int i = 0; i < n; i++)
    for (int k = i + 1; k < n; k++)
      if (how(words[i], words[k]) > 0) { const char *w = words[i]; words[i] = words[k]; words[k] = w; }
}
int main(void) {
  const char *words[] = { "pear", "apple", "fig" };
  sort(words, 3, by);
  for (int i = 0; i < 3; i++) printf("%s\n", words[i]);
  void (*leave)(int) = exit;
  if (by == strcmp) leave(7);
  return 1;
}
