//! uses what main does not reach
//! defined
#include <stdio.h>
typedef int step(int);
static int twice(int), once_more(int), never(int);
static step *steps[] = {twice, once_more};
static int twice(int n) { return 2 * n; }
static int once_more(int n) { return n + 1; }
static int never(int n) { return n; }
static int (*kept)(int) = never;
int main(void) {
  int n = 1;
  for (unsigned i = 0; i < sizeof steps / sizeof steps[0]; i++)
    printf("%d\n", n = steps[i](n));
  return 0;
}
