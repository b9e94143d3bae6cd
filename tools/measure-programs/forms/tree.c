/* a binary tree of 100 nodes, recursion: 8 rounds */
struct n {
  int v;
  struct n *l, *r;
};
void *malloc(unsigned long);
void free(void *);

struct n *insert(struct n *t, int v) {
  if (!t) {
    t = malloc(sizeof *t);
    t->v = v;
    t->l = t->r = 0;
    return t;
  }
  if (v < t->v)
    t->l = insert(t->l, v);
  else
    t->r = insert(t->r, v);
  return t;
}

void drop(struct n *t) {
  if (t) {
    drop(t->l);
    drop(t->r);
    free(t);
  }
}

int main(void) {
  unsigned x = 1;
  for (int r = 0; r < ROUNDS; r++) {
    struct n *t = 0;
    for (int i = 0; i < 100; i++) {
      x = x * 1103515245u + 12345u;
      t = insert(t, (int)(x >> 8));
    }
    drop(t);
  }
  return 0;
}
