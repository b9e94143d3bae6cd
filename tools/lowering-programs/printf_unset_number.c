//! uses formats of printf
//! said 
//! fault indeterminate line=8
#include <stdio.h>
int main(void) {
  char c;
  printf("text %3c\n",
         c);
  return 0;
}
