/* A list that is built, turned round, summed and given back. */
#include <stdio.h>
#include <stdlib.h>

struct node {
  int value;
  struct node *next;
};

static struct node *pushed(struct node *list, int value) {
  struct node *node = malloc(sizeof *node);
  if (!node)
    exit(EXIT_FAILURE);
  node->value = value;
  node->next = list;
  return node;
}

static struct node *reversed(struct node *list) {
  struct node *result = NULL;
  while (list) {
    struct node *next = list->next;
    list->next = result;
    result = list;
    list = next;
  }
  return result;
}

int main(void) {
  struct node *list = NULL;
  int sum = 0;
  for (int i = 1; i <= 5; i++)
    list = pushed(list, i * i);
  list = reversed(list);
  while (list) {
    struct node *first = list;
    printf("%d ", first->value);
    sum += first->value;
    list = first->next;
    free(first);
  }
  printf("= %d\n", sum);
  return sum;
}
