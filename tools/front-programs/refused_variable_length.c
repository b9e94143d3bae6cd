#include <string.h>

static int doubled(int count) {
  int numbers[count];
  memset(numbers, 0, sizeof numbers);
  return numbers[0] + 2 * count;
}

int main(void) {
  return doubled(3);
}
