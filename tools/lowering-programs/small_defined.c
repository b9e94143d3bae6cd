//! uses a switch without braces
//! uses spellings __inline
//! uses spellings __extension__
//! uses spellings __typeof__
//! uses _Alignof
//! defined
#include <stdio.h>
struct s { char c; union { short h; long l; }; struct { char x; } n[2]; };
static __inline __const__ char *name(__signed__ int n) { switch (n) case 0: case 1: return "small"; return "large"; }
__extension__ typedef long long wide;
int main(void) {
  __typeof__(unsigned int) u = 3; __typeof__(wide) w = -1; __typeof__(struct s) t = { 'c' };
  for (int i = 0; i < 3; i++) switch (i) case 2: if (u) printf("%s\n", name(i)); else printf("none\n");
  printf("%lu %lu %lu %ld %d\n", (unsigned long)_Alignof(struct s), (unsigned long)_Alignof(short[4]), (unsigned long)_Alignof(char *), (long)w, t.c);
  return name(1)[0];
}
