//! uses __func__
//! fault undefined clause=6.5p2 reason=unsequenced line=6
#include <stdio.h>
static int f(const char *who, int n) { printf("%s\n", who); return n; }
int main(void) { int i = 0;
  return f(__func__ + i++, i);
}
