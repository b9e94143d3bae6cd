#include <stdio.h>

int main(void) {
  char line[8];
  while (fgets(line, 80, stdin))
    printf("%s", line);
  return 0;
}
