/* Without --input the first read finds the end of standard input. */
#include <stdio.h>

int main(void) {
  int number = 5;
  char line[4] = "abc";
  printf("%d", getchar());
  printf(" %d\n", feof(stdin) != 0);
  printf("%d", scanf("%d", &number));
  printf(" %d\n", number);
  printf("%d", fgets(line, 4, stdin) == NULL);
  printf(" %s\n", line);
  return 0;
}
