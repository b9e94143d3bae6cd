//! uses formats of printf
//! said 1 ab\n
//! fault indeterminate line=9
#include <stdio.h>
int main(void) {
  char s[4];
  s[0] = 'a'; s[1] = 'b';
  printf("%d %.2s\n", 1, s);
  printf("%d %.3s\n", 1, s);
  return 0;
}
