#include <stdio.h>
#include <stdlib.h>
#include <stdnoreturn.h>

static noreturn void stop(int status) {
  puts("stopped");
  exit(status);
}

int main(void) {
  stop(3);
}
