/* What goes to stderr is told apart from what goes to stdout, and calls within the arguments too. */
#include <stdio.h>

static int loud(void) {
  printf("out of loud\n");
  fputs("error of loud\n", stderr);
  return 4;
}

int main(void) {
  FILE *streams[2] = {stdout, stderr};
  printf("%d\n", fprintf(stderr, "%d errors in %s\n", loud(), "line"));
  for (int i = 0; i < 2; i++)
    fprintf(streams[i], "stream %d\n", i);
  fputc('<', stderr);
  fwrite("\0\033_2\n", 1, 5, stderr);
  putc('>', stderr);
  puts("end of output");
  fprintf(stderr, "end of errors");
  return 3;
}
