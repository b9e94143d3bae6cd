//! uses compound literals
//! said 1 1 0 2 3\n
//! fault exit status=0
#include <stdio.h>
struct s { int a, b; };
static int n;
static int next(void) { return ++n; }
static int show(struct s s, const int *t, int k) { printf("%d %d %d %d %d\n", s.a, s.b, t[0], t[1], k); return 0; }
int main(void) { return show((struct s){ 1, next() }, (int[]){ [1] = next() }, next()); }
