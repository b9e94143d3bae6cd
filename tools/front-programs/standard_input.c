/* What stands on standard input: characters, lines, numbers and words. */
#include <stdio.h>

int main(void) {
  char name[16], line[8], letters[8], mark;
  int first, second, count, at;
  long wide;
  unsigned bits;
  count = scanf("%d %d", &first, &second);
  printf("%d: %d %d\n", count, first, second);
  count = scanf("%15s%c", name, &mark);
  printf("%d: %s %d\n", count, name, mark);
  while (fgets(line, sizeof line, stdin) && line[0] != '\n')
    printf("[%s]", line);
  count = scanf("%5ld%x %[a-c]%n", &wide, &bits, letters, &at);
  printf("%d: %ld %x %s %d\n", count, wide, bits, letters, at);
  count = scanf("%d", &first);
  printf("%d: %d\n", count, first);
  int next = getchar();
  printf("%c", next);
  printf("%d\n", ungetc('#', stdin) == '#' && getc(stdin) == '#' && ungetc(EOF, stdin) == EOF);
  count = scanf(" key=%i,%*d,%o;%%", &first, &bits);
  printf("%d: %d %u\n", count, first, bits);
  printf("%lu ", fread(letters, 2, 3, stdin));
  printf("%c%c%c %d ", letters[0], letters[2], letters[5], feof(stdin) != 0);
  printf("%d ", getchar() == EOF);
  printf("%d %d ", feof(stdin) != 0, ferror(stdin));
  clearerr(stdin);
  printf("%d", feof(stdin));
  printf(" %d\n", scanf("%d", &first));
  return 0;
}
