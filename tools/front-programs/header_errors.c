/* The numbers of errors that POSIX adds (C17 7.5p4), strerror (7.24.6.2) and perror (7.21.10.4). */
#include <errno.h>
#include <stdio.h>
#include <stdlib.h>
#include <string.h>

int main(void) {
  printf("%d %d %d %d %d %d\n", EPERM, ENOENT, E2BIG, ENOMEM, EINVAL, EOVERFLOW);
  printf("%s; %s; %s; %s\n", strerror(0), strerror(ENOENT), strerror(EDOM), strerror(EILSEQ));
  printf("%s\n", strerror(41));
  printf("%s\n", strerror(-12));
  perror("nothing");
  strtol("99999999999999999999", NULL, 10);
  perror("strtol");
  errno = ENOMEM;
  perror(NULL);
  perror("");
  return errno == ENOMEM ? 0 : 1;
}
