/* a list of allocated nodes: 100 rounds */
struct n {
  int v;
  struct n *next;
};
void *malloc(unsigned long);
void free(void *);

int main(void) {
  struct n *h = 0;
  for (int i = 0; i < 100; i++) {
    struct n *p = malloc(sizeof *p);
    p->v = i;
    p->next = h;
    h = p;
  }
  int s = 0;
  for (int r = 0; r < ROUNDS; r++)
    for (struct n *p = h; p; p = p->next)
      s = (s + p->v) % 1000;
  while (h) {
    struct n *next = h->next;
    free(h);
    h = next;
  }
  return s % 100;
}
