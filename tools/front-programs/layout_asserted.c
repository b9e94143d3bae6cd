#include <assert.h>
#include <stddef.h>

struct pair {
  char letter;
  int number;
};

int main(void) {
  assert(offsetof(struct pair, number) == 4);
  assert(sizeof(struct pair) == 8);
  return 0;
}
