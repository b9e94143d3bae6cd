#include <stdlib.h>

struct node {
  struct node *next;
};

int main(void) {
  struct node *list = NULL;
  for (int i = 0; i < 3; i++) {
    struct node *node = malloc(sizeof *node);
    if (!node)
      return EXIT_FAILURE;
    node->next = list;
    list = node;
  }
  for (struct node *node = list; node; node = node->next)
    free(node);
  return 0;
}
