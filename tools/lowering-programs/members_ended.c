//! uses members without a name
//! fault undefined clause=6.2.4p2 reason=ended line=12
#include <stdlib.h>
struct node {
  int kind;
  union { int number; struct { char *text; int length; }; };
};
int main(void) {
  struct node *n = malloc(sizeof *n);
  n->text = "abc";
  free(n);
  return n->length;
}
