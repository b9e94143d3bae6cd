#include <stdio.h>
#include <string.h>

int main(void) {
  char *list = "a,b";
  printf("%s\n", strtok(list, ","));
  return 0;
}
