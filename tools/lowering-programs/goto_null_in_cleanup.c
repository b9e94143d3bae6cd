//! uses goto
//! fault undefined clause=6.5.3.2p4 reason=null line=13
//! said open\nfailed\n
#include <stdio.h>
#include <stdlib.h>
int main(void) {
  int *buffer = 0;
  printf("open\n");
  for (int i = 0; i < 3; i++)
    if (i == 1) goto fail;
  buffer = malloc(4);
fail: printf("failed\n");
  *buffer = 1;
  free(buffer);
  return 0;
}
