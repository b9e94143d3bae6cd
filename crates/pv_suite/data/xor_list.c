/* A list that can be walked from both ends with one link a node: the
   exclusive or of two addresses. The links are integers; each node is exposed
   where its address goes into one (C17 6.3.2.3p5, p6). */
void *malloc(unsigned long);
void free(void *);
int printf(const char *, ...);
typedef unsigned long word;

struct node {
  int value;
  word link;
};

static void walk(struct node *at) {
  word before = 0;
  while (at) {
    struct node *next = (struct node *)(at->link ^ before);
    printf("%d ", at->value);
    before = (word)at;
    at = next;
  }
  printf("\n");
}

int main(void) {
  struct node *nodes[3];
  int i;
  for (i = 0; i < 3; i++) {
    nodes[i] = malloc(sizeof(struct node));
    nodes[i]->value = 10 * i;
  }
  nodes[0]->link = (word)nodes[1];
  nodes[1]->link = (word)nodes[0] ^ (word)nodes[2];
  nodes[2]->link = (word)nodes[1];
  walk(nodes[0]);
  walk(nodes[2]);
  for (i = 0; i < 3; i++)
    free(nodes[i]);
  return 0;
}
