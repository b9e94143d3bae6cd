//! uses main's parameters
//! args -n 12 "two words" "\"quoted\\"
//! defined
#include <stdio.h>
#include <stdlib.h>
#include <string.h>
int main(int argc, char *argv[]) {
  for (int i = 1; i < argc; i++) {
    printf("%d %s %lu\n", i, argv[i], (unsigned long)strlen(argv[i]));
    argv[i][0] = '*';
    printf("%s\n", argv[i]);
  }
  argv++;
  argc = atoi(argv[1]) + (argv[argc - 1] == 0);
  printf("%d\n", argc);
}
