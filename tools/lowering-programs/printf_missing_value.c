//! uses formats of printf
//! said 
//! fault undefined clause=6.9.1p12 reason=value line=7
#include <stdio.h>
static int nothing(int n) { if (n) return n; }
int main(void) {
  printf("%4d\n", nothing(0));
  return 0;
}
