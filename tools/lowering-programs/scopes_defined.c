//! uses declarations in a block
//! defined
#include <stdio.h>
static int outer(void) {
  typedef int (*step)(int);
  int once(int);
  step s = once;
  return s(1);
}
int once(int n) { return n + 1; }
int main(void) {
  typedef struct node { struct node *next; int value; } node;
  extern const char *name;
  node second = { 0, 2 }, first = { &second, 1 };
  int sum = 0;
  for (node *at = &first; at; at = at->next) sum += at->value;
  printf("%s %d %d\n", name, sum, outer());
  return 0;
}
const char *name = "later";
