//! uses library functions as values
//! fault undefined clause=6.2.4p2 reason=ended line=10
#include <stdlib.h>
struct heap { void *(*make)(size_t); void (*drop)(void *); };
int main(void) {
  struct heap h = { malloc, free };
  int *p = h.make(sizeof *p);
  *p = 1;
  h.drop(p);
  return *p;
}
