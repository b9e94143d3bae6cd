//! uses __func__
//! defined
#include <stdio.h>
static const char *who(void) { return __func__; }
static const char *other(void) { static int n; n++; return n ? __func__ : 0; }
int main(void) {
  { int main = 1; printf("%s %d\n", __func__, main); }
  printf("%s %s %d\n", who(), other(), who() == who());
  return sizeof __func__;
}
