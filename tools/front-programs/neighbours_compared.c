#include <stdio.h>

int main(void) {
  int first[2] = {1, 2}, second[2] = {3, 4};
  printf("%d\n", &first[0] < &first[1]);
  printf("%d\n", first != second);
  return first < second;
}
