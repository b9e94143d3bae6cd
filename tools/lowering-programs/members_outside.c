//! uses members without a name
//! fault undefined clause=6.5.3.2p4 reason=outside line=8
#include <stdlib.h>
struct node { int kind; struct { int a; struct { int b; }; }; };
int main(void) {
  struct node *p = malloc(sizeof p->kind);
  p->kind = 1;
  int *b = &p->b;
  return b != 0;
}
