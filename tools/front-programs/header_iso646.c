#include <iso646.h>
#include <stdio.h>

int main(void) {
  unsigned bits = 12;
  bits and_eq 10;
  bits or_eq 1;
  bits xor_eq 3;
  printf("%u %u\n", bits, compl bits bitand 15);
  return not ((bits not_eq 9 and 1) or (6 bitor 1) == (6 xor 1)) ? 1 : 0;
}
