/* a list that is walked: 100 rounds */
struct node {
  int v;
  struct node *next;
};
struct node n[100];

int main(void) {
  for (int i = 0; i < 99; i = i + 1) {
    n[i].v = i;
    n[i].next = &n[i + 1];
  }
  n[99].v = 99;
  n[99].next = 0;
  int s = 0;
  for (int r = 0; r < ROUNDS; r = r + 1)
    for (struct node *p = n; p; p = p->next)
      s = (s + p->v) % 1000;
  return s % 100;
}
