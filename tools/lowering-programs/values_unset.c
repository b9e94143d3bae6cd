//! uses library functions as values
//! fault indeterminate line=9
#include <stdlib.h>
#include <string.h>
int main(void) {
  void *(*copy)(void *, const void *, size_t) = &memcpy;
  int from, to = 1;
  copy(&to, &from, sizeof to);
  return to;
}
