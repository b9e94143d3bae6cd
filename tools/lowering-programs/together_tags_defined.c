//! uses _Alignof
//! uses _Static_assert
//! uses a ; that ends nothing
//! uses spellings __inline
//! uses spellings __extension__
//! uses spellings __typeof__
//! uses __func__
//! uses [static n]
//! defined
#include <stdio.h>
typedef struct { char c; ; struct { short s; ; } in; } box;
;
static __inline unsigned long least(const char word[static 2], __typeof__(int) n) { return word[1] + n; }
static const char *who(int n) { return n ? __func__ : "nobody"; }
int main(void) {
  __extension__ box b = { 'a', { _Alignof(box) } };
  _Static_assert(sizeof(box) == 4, "box");
  char word[4] = "xyz";
  printf("%c %d %s %s %d\n", b.c, b.in.s, who(0), who(1), who(1) == who(2));
  return least(word, b.in.s) + least("ab", sizeof __func__);
}
