/* malloc may refuse, and says so; an object that is too large ends the run. */
#include <stdio.h>
#include <stdlib.h>

static void fill(void) {
  char whole[1 << 24];
  whole[0] = 1;
}

int main(void) {
  if (!malloc(1ul << 40) && !calloc(1ul << 40, 1ul << 40))
    puts("refused");
  fill();
  return 0;
}
