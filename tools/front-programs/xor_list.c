/* A list whose nodes hold the two neighbours' addresses in one integer: a way back for each exposed address. */
#include <stdint.h>
#include <stdio.h>

struct node {
  uintptr_t both;
  int value;
};

int main(void) {
  struct node nodes[4];
  uintptr_t before = 0, at = (uintptr_t)&nodes[0];
  for (int i = 0; i < 4; i++) {
    uintptr_t left = i > 0 ? (uintptr_t)&nodes[i - 1] : 0, right = i < 3 ? (uintptr_t)&nodes[i + 1] : 0;
    nodes[i].both = left ^ right;
    nodes[i].value = i * i;
  }
  while (at) {
    struct node *node = (struct node *)at;
    uintptr_t next = node->both ^ before;
    printf("%d ", node->value);
    before = at;
    at = next;
  }
  printf("\n");
  return 0;
}
