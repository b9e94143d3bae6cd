//! uses main's parameters
//! args the cat the dog the end
//! defined
#include <stdio.h>
#include <stdlib.h>
#include <string.h>
struct count { const char *word; int n; };
static int by_count(const void *a, const void *b) {
  const struct count *x = a, *y = b;
  return x->n != y->n ? y->n - x->n : strcmp(x->word, y->word);
}
int main(int argc, char **argv) {
  struct count *all = calloc(argc, sizeof *all);
  int used = 0;
  for (int i = 1; i < argc; i++) {
    int k = 0;
    while (k < used && strcmp(all[k].word, argv[i])) k++;
    if (k == used) all[used++].word = argv[i];
    all[k].n++;
  }
  qsort(all, used, sizeof *all, by_count);
  for (int k = 0; k < used; k++) printf("%d %s\n", all[k].n, all[k].word);
  free(all);
  return 0;
}
