# 1 "list.c"
struct node { int value; struct node *next; };
# 5 "list.c"
int sum(struct node *n) {
  int total = 0;
  for (; n; n = n->next) total += n->valeu;
  return total;
}

int main(void) { return 0; }
