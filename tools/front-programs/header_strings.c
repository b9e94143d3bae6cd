/* <strings.h> and <sys/types.h> of POSIX. */
#include <stdio.h>
#include <strings.h>
#include <sys/types.h>

int main(void) {
  char text[8] = "abcdefg";
  ssize_t below = -1;
  printf("%d %d %d\n", strcasecmp("HeLLo", "hEllO"), strcasecmp("a", "B") < 0, strcasecmp("ab", "A") > 0);
  printf("%d %d %d\n", strncasecmp("abX", "ABy", 2), strncasecmp("abX", "ABy", 3) < 0, strncasecmp("x", "y", 0));
  printf("%s %s %d\n", index("a.b.c", '.'), rindex("a.b.c", '.'), index("abc", 'x') == 0);
  printf("%d %d %d\n", ffs(0), ffs(1), ffs(48));
  bcopy(text, text + 1, 3);
  printf("%s", text);
  bzero(text + 4, 4);
  printf(" %s %d %d\n", text, bcmp(text, "aabc", 4), bcmp(text, "aabd", 4) != 0);
  printf("%d %lu %lu\n", below < 0, sizeof(off_t), sizeof(pid_t));
  return 0;
}
