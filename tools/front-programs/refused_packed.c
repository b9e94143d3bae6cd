/* A compiler makes this structure five bytes long, and puts n at 1. */
#include <stdio.h>

struct __attribute__((packed)) pair {
  char c;
  int n;
};

int main(void) {
  printf("%lu\n", sizeof(struct pair));
  return 0;
}
