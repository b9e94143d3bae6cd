//! uses main's parameters
//! defined
#include <stdio.h>
int main(int argc, char **argv) {
  if (argc > 5) return 9;
  for (; *argv; argv++) ;
  printf("%d\n", argc);
  { if (argc) ; else return 1; }
}
