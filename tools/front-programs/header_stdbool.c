#include <stdbool.h>
#include <stdio.h>

static bool is_even(int number) {
  return number % 2 == 0;
}

int main(void) {
  bool found = 256;
  bool pointed = &found;
  int sum = true + true;
  printf("%d %d %d %d %d\n", found, pointed, sum, is_even(3), is_even(4) == true);
  return __bool_true_false_are_defined + false - 1;
}
