//! uses formats of snprintf
//! defined
#include <stdio.h>
struct item { const char *name; unsigned long size; long long id; };
static int show(char *to, unsigned long size, const struct item *it) {
  return snprintf(to, size, "%-8s%6lu %016llx %lld", it->name, it->size, (unsigned long long)it->id, it->id);
}
int main(void) {
  struct item items[] = { { "one", 1, 1 }, { "four", 44444, -1 } };
  char line[48];
  for (int i = 0; i < 2; i++) {
    int n = show(line, sizeof line, &items[i]);
    printf("[%s] %d\n", line, n);
    n = show(line, 20, &items[i]);
    printf("[%-25s] %03d\n", line, n);
  }
  return 0;
}
