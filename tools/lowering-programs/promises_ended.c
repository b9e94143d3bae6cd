//! uses [static n]
//! fault undefined clause=6.2.4p2 reason=ended line=7
#include <stdlib.h>
static int *kept;
static int keep(int a[static 2]) { kept = a; return a[0]; }
int main(void) { { int two[2] = { 1, 2 }; keep(two); }
  return *kept;
}
