#include <errno.h>
#include <stdio.h>
#include <stdlib.h>

int main(void) {
  printf("%d\n", errno);
  strtol("9999999999999999999999", NULL, 10);
  printf("%d %d\n", errno == ERANGE, EDOM != EILSEQ);
  errno = 0;
  strtol("12", NULL, 10);
  return errno;
}
