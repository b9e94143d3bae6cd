/* <signal.h>: raise calls the handler that signal named; SIGABRT can't be caught here. */
#include <errno.h>
#include <signal.h>
#include <stdio.h>

static sig_atomic_t caught;

static void note(int number) {
  caught += number;
}

int main(void) {
  printf("%d %d %d\n", SIG_DFL != SIG_IGN, SIG_IGN != SIG_ERR, SIG_ERR != SIG_DFL);
  printf("%d\n", signal(SIGINT, note) == SIG_DFL);
  printf("%d", raise(SIGINT));
  printf(" %d\n", (int)caught == SIGINT);
  printf("%d\n", signal(SIGINT, SIG_IGN) == note);
  printf("%d", raise(SIGINT));
  printf(" %d\n", (int)caught == SIGINT);
  errno = 0;
  printf("%d", signal(1000, note) == SIG_ERR);
  printf(" %d\n", errno > 0);
  return 0;
}
