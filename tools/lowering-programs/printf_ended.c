//! uses formats of printf
//! said begun\n
//! fault undefined clause=6.2.4p2 reason=ended line=12
#include <stdio.h>
#include <stdlib.h>
int main(void) {
  char *s = malloc(4);
  s[0] = 'a'; s[1] = 0;
  printf("%s\n", "begun");
  free(s);
  printf("%5d|%-5s|\n", 1,
    s);
  return 0;
}
