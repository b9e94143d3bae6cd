//! uses what main does not reach
//! fault undefined clause=6.2.4p2 reason=ended line=14
//! said 3\n
#include <stdio.h>
#include <stdlib.h>
struct unused { double *p; };

static int never(void) { return sizeof(struct unused); }
int three(void) { return 3; }
int main(void) {
  int *p = malloc(sizeof *p);
  printf("%d\n", three());
  free(p);
  return *p;
}
