//! uses _Alignof
//! uses _Static_assert
//! uses a ; that ends nothing
//! uses spellings __inline
//! uses spellings __extension__
//! uses spellings __typeof__
//! uses __func__
//! uses [static n]
//! defined
#include <stdio.h>
_Static_assert(_Alignof(long) == sizeof(long), "long");
struct row { int n[3]; ; const char *name; };
;
static __inline int sum(const int from[static 3]) { int all = 0; for (int i = 0; i < 3; i++) all += from[i]; return all; }
static void say(__typeof__(struct row) r) { _Static_assert(1, ""); printf("%s %s %d\n", __func__, r.name, sum(r.n)); }
int main(void) {
  __extension__ struct row r = { { 1, 2, _Alignof(short) }, "row" };
  say(r);
  return __func__[0] + sum(r.n);
}
