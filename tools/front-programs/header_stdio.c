#include <stdio.h>

int main(void) {
  FILE *stream = stdout;
  const short pairs[2] = {'a' + 256 * 'b', 'c' + 256 * 'd'};
  int written = printf("%d %u %x %c %s %%\n", -1, 4294967295u, 255, 'c', "text");
  printf("%ld %lu %lx %d\n", -1l, 18446744073709551615ul, 255ul, written);
  written = puts("a line");
  printf("%d\n", written >= 0);
  written = putchar('x');
  printf("%d\n", written == 'x');
  fputs("no line feed", stream);
  fputc('\n', stdout);
  written = putc('A' - 256, stream);
  printf("%d\n", written);
  fprintf(stream, "%s\n", "no more");
  written = fprintf(stream, "alone\n");
  fprintf(stdout, "%d %d\n", written, fflush(NULL));
  size_t whole = fwrite(pairs, 2, 2, stdout), none = fwrite(pairs, 0, 2, stdout);
  printf(" %lu %lu\n", whole, none);
  return fflush(stream) + EOF + 1;
}
