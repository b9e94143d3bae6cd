//! uses formats of printf
//! said 
//! fault indeterminate line=8
#include <stdio.h>
int main(void) {
  char s[4];
  s[0] = 'a';
  printf("%d %8s\n",
         1, s);
  return 0;
}
