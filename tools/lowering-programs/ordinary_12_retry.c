//! uses goto
//! defined
#include <stdio.h>
#include <stdlib.h>
static int tries;
static void *unlikely(size_t n) { return ++tries % 3 ? NULL : malloc(n); }
static int copy(const char *from, char **to) {
  int status = 1, left = 5;
  char *p = NULL;
retry:
  p = unlikely(32);
  if (!p) { if (left-- > 0) goto retry; goto fail; }
  for (int i = 0; ; i++) { if (i == 31) goto fail; p[i] = from[i]; if (!from[i]) break; }
  *to = p;
  p = NULL;
  status = 0;
fail:
  free(p);
  return status;
}
int main(void) { char *t = NULL; int s = copy("short", &t); printf("%d %s %d\n", s, t, tries); free(t); s = copy("this one is too long to be copied", &t); return s * 10 + tries; }
